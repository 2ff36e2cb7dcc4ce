// The time that CGAL takes for the same squares, in machine numbers: rectangular_p_center_2 (CGAL manual, "Bounding Volumes").
//
//     g++ -O2 -DNDEBUG -o cgal_centres bench/cgal_centres.cpp && ./cgal_centres P FILE [RUNS]
//
// It prints the least of RUNS times of the call in milliseconds, and the size, which is the side of the squares. Without RUNS it
// makes one call and prints the size alone, so that the whole process can be timed beside `bounds centres FILE --p P`.
#include <CGAL/Cartesian.h>
#include <CGAL/rectangular_p_center_2.h>

#include <algorithm>
#include <chrono>
#include <cstdio>
#include <cstdlib>
#include <iterator>
#include <vector>

using Kernel = CGAL::Cartesian<double>;
using Point = Kernel::Point_2;

int main(int count, char** words) {
    if (count < 3) return 2;
    const int squares = std::atoi(words[1]);
    std::FILE* file = std::fopen(words[2], "r");
    if (!file) return 3;
    std::vector<Point> points;
    long x, y;
    while (std::fscanf(file, "%ld %ld", &x, &y) == 2) points.emplace_back(x, y);
    const int runs = count > 3 ? std::atoi(words[3]) : 1;
    double least = 1e9, side = 0;
    for (int run = 0; run < runs; run++) {
        std::vector<Point> centres, given = points;
        const auto start = std::chrono::steady_clock::now();
        CGAL::rectangular_p_center_2(given.begin(), given.end(), std::back_inserter(centres), side, squares);
        const std::chrono::duration<double, std::milli> taken = std::chrono::steady_clock::now() - start;
        least = std::min(least, taken.count());
    }
    if (count > 3) std::printf("%.2f ms, ", least);
    std::printf("side %.1f\n", side);
}
