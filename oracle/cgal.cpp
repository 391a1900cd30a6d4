// CGAL's two partitions of an outline into convex areas that need not be the fewest, for the benchmark to call.
#include <CGAL/Exact_predicates_inexact_constructions_kernel.h>
#include <CGAL/Partition_traits_2.h>
#include <CGAL/partition_2.h>
#include <CGAL/partition_is_valid_2.h>

#include <cstddef>
#include <iterator>
#include <list>

using Traits = CGAL::Partition_traits_2<CGAL::Exact_predicates_inexact_constructions_kernel>;
using Polygon = Traits::Polygon_2;
using Areas = std::list<Polygon>;

static Areas by_hertel_and_mehlhorn(const Polygon &outline) {
    Areas areas;
    CGAL::approx_convex_partition_2(outline.vertices_begin(), outline.vertices_end(), std::back_inserter(areas), Traits());
    return areas;
}

static Areas by_greene(const Polygon &outline) {
    Areas areas;
    CGAL::greene_approx_convex_partition_2(outline.vertices_begin(), outline.vertices_end(), std::back_inserter(areas), Traits());
    return areas;
}

// Whether CGAL's own check takes the areas for a convex partition of the outline.
static bool is_valid(const Polygon &outline, const Areas &areas) {
    return CGAL::convex_partition_is_valid_2(outline.vertices_begin(), outline.vertices_end(), areas.begin(), areas.end(), Traits());
}

extern "C" {

// An outline of n corners, x and y in turn.
Polygon *cgal_outline(const float *coords, std::size_t n) {
    auto *outline = new Polygon;
    for (std::size_t i = 0; i < n; i++) outline->push_back(Traits::Point_2(coords[2 * i], coords[2 * i + 1]));
    return outline;
}

void cgal_drop(Polygon *outline) { delete outline; }

// The number of areas.
std::size_t cgal_approx_convex_partition_2(const Polygon *outline) { return by_hertel_and_mehlhorn(*outline).size(); }

std::size_t cgal_greene_approx_convex_partition_2(const Polygon *outline) { return by_greene(*outline).size(); }

// Whether the areas pass CGAL's own check.
bool cgal_approx_convex_is_valid(const Polygon *outline) { return is_valid(*outline, by_hertel_and_mehlhorn(*outline)); }

bool cgal_greene_approx_convex_is_valid(const Polygon *outline) { return is_valid(*outline, by_greene(*outline)); }
}
