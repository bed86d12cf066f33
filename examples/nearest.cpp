// Prints the permitted settings nearest to what was wished, by name.
//
//     nearest RULES WISH
//
// The comments before the header of the rule file may name settings: `c NUMBER NAME`, where two spaces end the name.
// With the library installed:
//
//     c++ -std=c++17 nearest.cpp $(pkg-config --cflags --libs powhanire) -o nearest
#include <powhanire.h>

#include <algorithm>
#include <cstdint>
#include <fstream>
#include <iostream>
#include <stdexcept>
#include <string>
#include <vector>

namespace {

constexpr std::uint8_t FREE = 2; // a setting that is not wished

struct File {
    std::string name, text;

    explicit File(const std::string &path) : name(path) {
        std::ifstream in(path, std::ios::binary);
        char block[4096];
        while (in.read(block, sizeof block) || in.gcount() > 0)
            text.append(block, static_cast<std::size_t>(in.gcount()));
        if (!in.eof())
            throw std::runtime_error(name + ": cannot be read");
    }

    const std::uint8_t *bytes() const { return reinterpret_cast<const std::uint8_t *>(text.data()); }
};

std::string what_is_wrong(std::uint64_t refusal) {
    switch (refusal) {
    case 1: return "the header `p cnf N C` is missing or malformed";
    case 2: return "the header's N or C is out of range";
    case 3: return "this is neither an entry (V or -V, without leading zeros) nor the 0 that closes a rule";
    case 4: return "the entry's setting is above N";
    case 6: return "there are more rules than the header's C, or fewer, or the last is not closed";
    case 7: return "there are more than 31000 entries";
    case 8: return "the line is cut, out of column or malformed, or comes after the last wish";
    case 9: return "the first line's number of settings, number of wishes or limit is out of range";
    case 10: return "the wish's setting is out of range or not rising, or its value is neither 0 nor 1";
    case 11: return "the wish row or the choice is for more or fewer settings than the rules";
    case 12: return "with wishes there are at most 256 settings, 4096 rules and 16384 entries";
    default: return "the library refuses this"; // the others come of no file
    }
}

// The answer, if it is no refusal; the place of a refusal is in this file (that of 11 and 12 is always 0).
powhanire_answer accepted(powhanire_answer answer, const File &file) {
    if (answer.refusal == 0)
        return answer;
    const std::string before = file.text.substr(0, answer.place);
    const auto line = 1 + std::count(before.begin(), before.end(), '\n');
    const auto feed = before.rfind('\n');
    const auto column = feed == std::string::npos ? before.size() + 1 : before.size() - feed;
    throw std::runtime_error(file.name + ':' + std::to_string(line) + ':' + std::to_string(column) + ": " +
                             what_is_wrong(answer.refusal));
}

// A setting's name, or else its number. The file was accepted, so that each comment line has its line feed.
std::string name_of(std::size_t setting, const std::string &rules) {
    const std::string number = std::to_string(setting) + ' ';
    for (std::size_t line = 0, feed; rules[line] == 'c'; line = feed + 1) {
        feed = rules.find('\n', line);
        const auto at = rules.find_first_not_of(' ', line + 1);
        if (rules.compare(at, number.size(), number) != 0)
            continue;
        const auto name = rules.find_first_not_of(' ', at + number.size());
        const auto end = std::min(feed, rules.find("  ", name));
        if (name < end)
            return rules.substr(name, end - name);
    }
    return std::to_string(setting);
}

void print_nearest(const File &rule_file, const File &wish_file) {
    std::vector<std::int32_t> rules(40000); // these sizes always suffice
    std::vector<std::uint8_t> row(256), choice(256);
    const auto read = accepted(
        powhanire_read_rules(rule_file.bytes(), rule_file.text.size(), rules.data(), rules.size()), rule_file);
    const auto wished = accepted(
        powhanire_read_wishes(wish_file.bytes(), wish_file.text.size(), row.data(), row.size()), wish_file);
    rules.resize(read.value[2]);
    row.resize(wished.value[0]);
    const auto found = powhanire_nearest(read.value[0], rules.data(), rules.size(), row.data(), row.size(),
                                         choice.data(), choice.size());
    accepted(found, found.refusal == 11 ? wish_file : rule_file); // 11: the wishes are for another n
    if (found.verdict == 0) {
        std::cout << "no choice meets the rules\n";
        return;
    }
    std::cout << found.value[0] << " of " << wished.value[1] << " wishes broken\n";
    for (std::size_t v = 0; v < row.size(); v++) {
        std::cout << (choice[v] ? "on   " : "off  ") << name_of(v + 1, rule_file.text);
        if (row[v] != FREE && row[v] != choice[v])
            std::cout << " (wished " << (row[v] ? "on" : "off") << ')';
        std::cout << '\n';
    }
}

} // namespace

int main(int argc, char **argv) {
    if (argc != 3) {
        std::cerr << "usage: nearest RULES WISH\n";
        return 2;
    }
    try {
        if (powhanire_version() != POWHANIRE_VERSION)
            throw std::runtime_error("libpowhanire.a: not of the header's version");
        const File rule_file(argv[1]), wish_file(argv[2]);
        print_nearest(rule_file, wish_file);
        if (!std::cout.flush())
            throw std::runtime_error("standard output: cannot be written");
    } catch (const std::exception &error) {
        std::cerr << error.what() << '\n';
        return 1;
    }
    return 0;
}
