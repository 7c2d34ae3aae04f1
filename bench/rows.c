/* The rows: the proved library, plain C, and each of Boost's ways, if they are built. */
#include "rows.h"
#include "krylozhma.h"
#include "plain.h"
#ifdef WITH_BOOST
#include "boost.h"
#endif

static const struct row checked[] = {
    { "ours", krylozhma_ask, krylozhma_check, NULL },
    { "plain", plain_ask, plain_check, NULL },
};
enum { CHECKED = sizeof checked / sizeof *checked };

#ifdef WITH_BOOST
int row_count(void) { return CHECKED + boost_way_count; }

struct row row_at(int i) {
    if (i < CHECKED) return checked[i];
    const struct boost_way *way = &boost_ways[i - CHECKED];
    return (struct row){ way->name, way->ask, NULL, way->load };
}
#else
int row_count(void) { return CHECKED; }
struct row row_at(int i) { return checked[i]; }
#endif
