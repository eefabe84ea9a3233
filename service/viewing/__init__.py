"""Draws the output of a run or of a service: reads its lines, sums them, and makes the page or the picture of plant_view."""
