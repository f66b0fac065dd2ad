// The rows that each line of standard input takes on a screen of WIDTH columns, by words.
//
//   height [WIDTH]     80 if none is given; status 2 where it is no number
#include <console_lines.h>

#include <cstdlib>
#include <iostream>
#include <string>
#include <vector>

static console_answer height(const std::string &line, std::size_t width) {
    std::vector<uint8_t> conv(CONSOLE_CONV_SIZE(line.size()));
    std::vector<console_span> spans(CONSOLE_SPANS_SIZE(line.size()));
    const uint8_t *bytes = reinterpret_cast<const uint8_t *>(line.data());
    return console_height(bytes, line.size(), width, CONSOLE_BY_WORDS_AS_DRAWN, conv.data(), conv.size(), spans.data(), spans.size());
}

int main(int argc, char **argv) {
    const std::string digits = argc > 1 ? argv[1] : "80";
    if (argc > 2 || digits.empty() || digits.find_first_not_of("0123456789") != std::string::npos) {
        std::cerr << "height [WIDTH]\n";
        return 2;
    }
    const std::size_t width = std::strtoull(digits.c_str(), nullptr, 10);
    std::string line;
    for (std::size_t number = 1; std::getline(std::cin, line); number++) {
        const console_answer a = height(line, width);
        if (a.number == CONSOLE_ACCEPTED)
            std::cout << number << ": " << a.count << " rows\n";
        else
            std::cout << number << ": refused " << a.number << ": " << console_refusal_words(a.number) << '\n';
    }
}
