// Writes the shape of the claims in a file, as the program's command `shape` does.
//
//   example FILE
//
// The vectors' data() may be null where they are empty, as the text of an empty file is, and the
// line of the first call, which learns the line's length alone.
#include "circle.h"

#include <cstddef>
#include <cstdint>
#include <fstream>
#include <iostream>
#include <iterator>
#include <vector>

using Bytes = std::vector<std::uint8_t>;

int main(int argc, char **argv) {
    std::ifstream file;
    if (argc == 2) {
        file.open(argv[1], std::ios::binary);
    }
    if (!file.is_open()) {
        std::cerr << "usage: example FILE\n";
        return 3;
    }
    const Bytes text{std::istreambuf_iterator<char>(file), std::istreambuf_iterator<char>()};
    Bytes line;
    std::size_t needed = 0;
    std::uint8_t status;
    do {
        line.resize(needed);
        status = circle_shape(text.data(), text.size(), line.data(), line.size(), &needed);
    } while (needed > line.size());
    std::cout.write(reinterpret_cast<const char *>(line.data()),
                    static_cast<std::streamsize>(needed));
    return status;
}
