"""What builds the repository, checks it and measures it. README.md in this folder says what each package has."""

from service import ROOT, show_help

__all__ = ["EXAMPLES", "ROOT", "show_help"]
EXAMPLES = ROOT / "examples"
