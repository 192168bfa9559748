// s2 FIRST SECOND: S2's intersection, union and difference of the black cells of two maps of 4,096 cells a side.
//
// A file holds the words of the black leaves, sorted. A leaf becomes the S2 cell of face 0 whose position is its code: S2 orders a
// cell's quarters along another curve, but cells nest in the same way, so the sets and the work are the same. First the numbers of the two
// maps' cells are printed. Then for each line that is read, an operation's name, it runs once, and its milliseconds, the number of cells of
// the result and the sum of their ids are printed. The result is freed after its time has been taken.
#include <chrono>
#include <cstdint>
#include <cstdio>
#include <fstream>
#include <functional>
#include <iostream>
#include <string>
#include <vector>

#include "s2/s2cell_id.h"
#include "s2/s2cell_union.h"

// The S2 cell of a leaf: below the face its code, then the bit that marks its level.
static S2CellId CellOf(uint64_t word) {
  uint64_t code = word >> 16, level = word >> 8 & 0xff;
  return S2CellId(code << 37 | uint64_t{1} << (36 + 2 * level));
}

static S2CellUnion Read(const char* name) {
  std::ifstream file(name, std::ios::binary);
  std::vector<S2CellId> cells;
  uint64_t word;
  while (file.read(reinterpret_cast<char*>(&word), sizeof word)) cells.push_back(CellOf(word));
  return S2CellUnion(std::move(cells));
}

static void Time(const std::function<S2CellUnion()>& operation) {
  auto start = std::chrono::steady_clock::now();
  S2CellUnion result = operation();
  std::chrono::duration<double, std::milli> taken = std::chrono::steady_clock::now() - start;
  uint64_t sum = 0;
  for (S2CellId id : result) sum += id.id();
  std::printf("%.4f %zu %llu\n", taken.count(), result.cell_ids().size(), static_cast<unsigned long long>(sum));
}

int main(int, char** argv) {
  S2CellUnion first = Read(argv[1]), second = Read(argv[2]);
  std::printf("%zu %zu\n", first.cell_ids().size(), second.cell_ids().size());
  std::fflush(stdout);
  for (std::string name; std::getline(std::cin, name);) {
    if (name == "intersection") Time([&] { return first.Intersection(second); });
    if (name == "union") Time([&] { return first.Union(second); });
    if (name == "difference") Time([&] { return first.Difference(second); });
    std::fflush(stdout);
  }
}
