#include "check.hpp"

#include <cstdio>
#include <cstdlib>
#include <fstream>
#include <iterator>
#include <new>

static unsigned long checks;
static unsigned long failed;
static std::size_t allocated;
static std::string examples;

void check(bool holds, const char *file, int line, const char *text)
{
    checks++;
    if (!holds) {
        failed++;
        std::printf("%s:%d: %s\n", file, line, text);
    }
}

bool all_hold()
{
    std::printf("cpp: %lu checks", checks);
    if (failed > 0) {
        std::printf(", %lu failed", failed);
    }
    std::printf("\n");
    return failed == 0;
}

std::size_t allocations()
{
    return allocated;
}

void *operator new(std::size_t size)
{
    allocated++;
    if (void *memory = std::malloc(size == 0 ? 1 : size)) {
        return memory;
    }
    std::abort();
}

void operator delete(void *memory) noexcept
{
    std::free(memory);
}

void operator delete(void *memory, std::size_t) noexcept
{
    std::free(memory);
}

void set_examples(const char *folder)
{
    examples = folder;
}

std::vector<std::uint8_t> example(const char *name)
{
    std::ifstream file(examples + "/" + name, std::ios::binary);
    CHECK(file.good());
    const std::string bytes{std::istreambuf_iterator<char>(file), std::istreambuf_iterator<char>()};
    return {bytes.begin(), bytes.end()};
}
