// Boost.Geometry's R-tree as a row of the benchmark: several trees, and three ways to put ties right.
#include "boost.h"
#include "plain_bytes.h"

#include <algorithm>
#include <cmath>
#include <cstring>
#include <vector>

#include <boost/geometry.hpp>
#include <boost/geometry/geometries/box.hpp>
#include <boost/geometry/geometries/point.hpp>
#include <boost/geometry/index/rtree.hpp>

namespace {

namespace bg = boost::geometry;
namespace bgi = boost::geometry::index;

struct Found { uint64_t dsq; uint32_t bay, zone; };

bool is_before(Found const& a, Found const& b) { return a.dsq != b.dsq ? a.dsq < b.dsq : a.bay < b.bay; }

// One list for all questions, so that none of them allocates it.
std::vector<Found> list;

uint64_t write_page(uint32_t k, uint8_t *room) {
    size_t found = std::min<size_t>(k, list.size());
    for (size_t i = 0; i < found; i++) {
        uint64_t words[2] = { list[i].bay | uint64_t(list[i].zone) << 32, list[i].dsq };
        std::memcpy(room + 16 * i, words, 16);
    }
    std::memset(room + 16 * found, 0, 16 * (k - found));
    return found;
}

// A tree of bays with coordinates of one type.
template <class Coordinate, class Parameters, bool packed>
struct Hall {
    using Point = bg::model::point<Coordinate, 2, bg::cs::cartesian>;
    using Box = bg::model::box<Point>;
    struct Bay { Box box; uint32_t number, zone; };
    struct BoxOf {
        using result_type = Box const&;
        result_type operator()(Bay const& bay) const { return bay.box; }
    };
    struct SameBay {
        bool operator()(Bay const& a, Bay const& b) const { return a.number == b.number; }
    };
    using Tree = bgi::rtree<Bay, Parameters, BoxOf, SameBay>;
    static inline Tree tree;

    static void load(std::vector<Bay> const& bays) {
        if (packed) {
            tree = Tree(bays.begin(), bays.end());
        } else {
            tree.clear();
            for (Bay const& bay : bays) tree.insert(bay);
        }
    }

    static uint64_t distance(Point const& p, Bay const& bay) {
        auto dsq = bg::comparable_distance(p, bay.box);
        static_assert(sizeof dsq == 8, "squared distances need more than 32 bits");
        return uint64_t(dsq);
    }
};

struct Asked { uint32_t k, badge, after_bay; uint64_t after_dsq; };

// The badge's zones and the mark as a predicate; what the question leaves open is not tested.
template <class H, bool zoned, bool marked>
struct Wanted {
    typename H::Point p;
    Asked q;
    bool operator()(typename H::Bay const& bay) const {
        if (zoned && !(q.badge >> bay.zone & 1)) return false;
        return !marked || is_before({ q.after_dsq, q.after_bay, 0 }, { H::distance(p, bay), bay.number, 0 });
    }
};

// Where a query's bays go: the list, with their distances.
template <class H>
struct Collect {
    typename H::Point const *p;
    Collect& operator*() { return *this; }
    Collect& operator++() { return *this; }
    Collect& operator++(int) { return *this; }
    Collect& operator=(typename H::Bay const& bay) {
        list.push_back({ H::distance(*p, bay), bay.number, bay.zone });
        return *this;
    }
};

// A query for bays that are wanted; no predicate where every bay is.
template <class H, bool zoned, bool marked, class Predicate>
void collect(Predicate const& predicate, typename H::Point const& p, Asked const& q) {
    list.clear();
    if constexpr (zoned || marked)
        H::tree.query(predicate && bgi::satisfies(Wanted<H, zoned, marked>{ p, q }), Collect<H>{ &p });
    else
        H::tree.query(predicate, Collect<H>{ &p });
}

// All that is wanted and no farther than d.
template <class H, bool zoned, bool marked>
void collect_within(uint64_t d, typename H::Point const& p, Asked const& q) {
    using Point = typename H::Point;
    auto x = bg::get<0>(p), y = bg::get<1>(p), reach = decltype(x)(std::ceil(std::sqrt(double(d))));
    typename H::Box square(Point(x - reach, y - reach), Point(x + reach, y + reach));
    auto near = [&](typename H::Bay const& bay) { return H::distance(p, bay) <= d; };
    collect<H, zoned, marked>(bgi::intersects(square) && bgi::satisfies(near), p, q);
}

// Ties put right by a second query for all that are no farther than the kth.
struct Twice {
    template <class H, bool zoned, bool marked>
    static void fill(typename H::Point const& p, Asked const& q) {
        collect<H, zoned, marked>(bgi::nearest(p, q.k), p, q);
        if (list.size() < q.k) return;
        uint64_t kth = std::max_element(list.begin(), list.end(), is_before)->dsq;
        collect_within<H, zoned, marked>(kth, p, q);
    }
};

// One more than wanted is asked for; the second query is made only where that one is as far as the kth.
struct OneMore {
    template <class H, bool zoned, bool marked>
    static void fill(typename H::Point const& p, Asked const& q) {
        collect<H, zoned, marked>(bgi::nearest(p, q.k + 1), p, q);
        if (list.size() <= q.k) return;
        uint64_t last = 0, kth = 0;
        for (Found const& f : list) {
            if (f.dsq >= last) kth = last, last = f.dsq;
            else if (f.dsq > kth) kth = f.dsq;
        }
        if (kth == last) collect_within<H, zoned, marked>(kth, p, q);
    }
};

// The bays one after another, nearest first, until one is strictly farther than the kth.
struct Walk {
    template <class H, bool zoned, bool marked>
    static void fill(typename H::Point const& p, Asked const& q) {
        list.clear();
        if constexpr (zoned || marked)
            walk<H>(H::tree.qbegin(bgi::nearest(p, H::tree.size()) && bgi::satisfies(Wanted<H, zoned, marked>{ p, q })),
                    p, q);
        else
            walk<H>(H::tree.qbegin(bgi::nearest(p, H::tree.size())), p, q);
    }
    template <class H, class Iterator>
    static void walk(Iterator it, typename H::Point const& p, Asked const& q) {
        for (; it != H::tree.qend(); ++it) {
            uint64_t dsq = H::distance(p, *it);
            if (list.size() >= q.k && dsq > list[q.k - 1].dsq) return;
            list.push_back({ dsq, it->number, it->zone });
        }
    }
};

template <class H, class Way, bool zoned, bool marked>
uint64_t page(typename H::Point const& p, Asked const& q, uint8_t *room) {
    Way::template fill<H, zoned, marked>(p, q);
    std::sort(list.begin(), list.end(), is_before);
    return write_page(q.k, room);
}

template <class H, class Way>
uint64_t ask(const uint8_t *, size_t, int32_t x, int32_t y, uint32_t k, uint32_t badge, uint64_t after_dsq,
             uint32_t after_bay, uint8_t *room, size_t) {
    typename H::Point p(x, y);
    Asked q = { k, badge, after_bay, after_dsq };
    bool marked = after_dsq != 0 || after_bay != 0;
    if (badge == 0xffffffffu) return marked ? page<H, Way, false, true>(p, q, room) : page<H, Way, false, false>(p, q, room);
    return marked ? page<H, Way, true, true>(p, q, room) : page<H, Way, true, false>(p, q, room);
}

template <class H>
void load(const uint8_t *map) {
    std::vector<typename H::Bay> bays;
    for (uint32_t n = 0; n < u16_at(map); n++) {
        const uint8_t *node = node_at(map, n);
        for (int i = 0; level_of(node) == 0 && i < SLOTS; i++) {
            const uint8_t *s = slot_at(node, i);
            if (!(occupancy_of(node) >> i & 1)) continue;
            typename H::Point low(i32_at(s), i32_at(s + 8)), high(i32_at(s + 4), i32_at(s + 12));
            bays.push_back({ typename H::Box(low, high), reference_of(s), s[20] });
        }
    }
    list.reserve(bays.size());
    H::load(bays);
}

template <class H, class Way>
boost_way way(const char *name) { return { name, load<H>, ask<H, Way> }; }

// With packed trees the split is never used: only the number of entries of a node counts.
template <size_t entries> using Packed = Hall<int32_t, bgi::linear<entries>, true>;

}

const boost_way boost_ways[] = {
    way<Packed<4>, OneMore>("one more, int32, packed 4"),
    way<Packed<8>, OneMore>("one more, int32, packed 8"),
    way<Packed<16>, OneMore>("one more, int32, packed 16"),
    way<Packed<32>, OneMore>("one more, int32, packed 32"),
    way<Packed<64>, OneMore>("one more, int32, packed 64"),
    way<Packed<4>, Twice>("twice, int32, packed 4"),
    way<Packed<8>, Twice>("twice, int32, packed 8"),
    way<Packed<64>, Twice>("twice, int32, packed 64"),
    way<Packed<16>, Walk>("walk, int32, packed 16"),
    way<Hall<int64_t, bgi::linear<8>, true>, OneMore>("one more, int64, packed 8"),
    way<Hall<int64_t, bgi::linear<16>, true>, OneMore>("one more, int64, packed 16"),
    way<Hall<int64_t, bgi::linear<64>, true>, OneMore>("one more, int64, packed 64"),
    way<Hall<double, bgi::linear<16>, true>, OneMore>("one more, double, packed 16"),
    way<Hall<int32_t, bgi::rstar<8>, false>, OneMore>("one more, int32, rstar 8"),
    way<Hall<int32_t, bgi::rstar<16>, false>, OneMore>("one more, int32, rstar 16"),
};
const int boost_way_count = sizeof boost_ways / sizeof *boost_ways;
