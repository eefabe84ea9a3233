/* Performs calls through melfjits.hpp, and prints their outputs: tools/compare/library_cases says
 * how both look. It is a test of the header, and an example of its use. */
#include "melfjits.hpp"

#include <cstdio>
#include <iostream>
#include <sstream>
#include <string>

namespace {

const char *const causes[] = {"InboxFull", "Idle",       "Empty",     "NotOurs",      "Short",
                              "TidInUse",  "UnknownAck", "NoSuchSid", "NotRequesting"};

std::string hexadecimal(const std::uint8_t *data, std::size_t length)
{
    std::string text;
    for (std::size_t at = 0; at < length; at++) {
        char digits[3];
        std::snprintf(digits, sizeof digits, "%02X", data[at]);
        text += digits;
    }
    return text;
}

melfjits::bytes octets_of(const std::string &text)
{
    melfjits::bytes made;
    for (std::size_t at = 0; at + 1 < text.size(); at += 2)
        made.push_back(static_cast<std::uint8_t>(std::stoul(text.substr(at, 2), nullptr, 16)));
    return made;
}

melfjits::address address_of(const std::string &text)
{
    const melfjits::bytes octets = octets_of(text);
    melfjits::address made{};
    std::copy_n(octets.begin(), made.size(), made.begin());
    return made;
}

struct printer {
    void operator()(const melfjits::reply &reply) const
    {
        std::cout << "R " << hexadecimal(reply.modem.data(), 6) << ' '
                  << hexadecimal(reply.message.data(), reply.message.size()) << '\n';
    }

    void operator()(const melfjits::drop &drop) const
    {
        std::cout << "S " << (drop.modem ? hexadecimal(drop.modem->data(), 6) : "-") << ' ' << causes[drop.cause - 1] << '\n';
    }

    void operator()(const melfjits::frame &frame) const
    {
        std::cout << "F " << frame.operator_at << ' ' << frame.number;
        for (const melfjits_grant &span : frame.spans)
            std::cout << ' ' << span.sid << '/' << span.iuc << '/' << span.start << '/' << span.length;
        for (const std::uint16_t sid : frame.pending)
            std::cout << ' ' << sid << "/P";
        std::cout << '\n';
    }

    void operator()(const melfjits::map &map) const
    {
        std::cout << "MAP " << map.number << ' ' << hexadecimal(map.message.data(), map.message.size()) << '\n';
    }
};

melfjits::slice slice_of(const std::string &text)
{
    unsigned start, length, budget;
    std::sscanf(text.c_str(), "%u/%u/%u", &start, &length, &budget);
    return {static_cast<std::uint16_t>(start), static_cast<std::uint16_t>(length), static_cast<std::uint16_t>(budget)};
}

void perform(melfjits::channel &channel, const std::string &line)
{
    std::istringstream fields(line);
    std::string name, text, message;
    unsigned long first = 0, second = 0;
    fields >> name;
    if (name == "arrive") {
        fields >> text >> message;
        channel.arrive(address_of(text), octets_of(message));
    } else if (name == "request") {
        fields >> text >> first >> second;
        channel.request(address_of(text), static_cast<std::uint16_t>(first), static_cast<std::uint16_t>(second));
    } else if (name == "reopen") {
        channel = melfjits::channel::open_saved(channel.save());
    } else if (name == "reslice") {
        std::vector<melfjits::slice> rows;
        fields >> first;
        while (fields >> text)
            rows.push_back(slice_of(text));
        channel.reslice(static_cast<std::uint32_t>(first), rows);
    } else {
        fields >> first;
        name == "tick" ? channel.tick(first) : channel.collect(first);
    }
}

/* Reads the lines of a case up to `end`. */
std::vector<std::string> lines_of_case()
{
    std::vector<std::string> lines;
    std::string line;
    while (std::getline(std::cin, line) && line != "end")
        lines.push_back(line);
    return lines;
}

void perform_case(const std::string &plant, const std::vector<std::string> &lines)
{
    std::size_t at = 0;
    try {
        melfjits::channel opened(plant);
        melfjits::channel channel = std::move(opened);
        for (; at < lines.size(); at++) {
            perform(channel, lines[at]);
            while (const std::optional<melfjits::output> output = channel.next_output())
                std::visit(printer(), *output);
        }
    } catch (const melfjits::error &error) {
        std::cout << "refused " << at << ' ' << error.code() << '\n';
    }
    std::cout << "end\n";
}

} // namespace

int main()
{
    std::string word;
    std::size_t length;
    while (std::cin >> word >> length) {
        std::string plant(length, '\0');
        std::cin.get();
        std::cin.read(plant.data(), static_cast<std::streamsize>(length));
        perform_case(plant, lines_of_case());
    }
}
