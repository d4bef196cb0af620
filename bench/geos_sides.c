// How long GEOS takes for the sides of all points of layers in all their rings: prepared polygons, each asked for the
// points that a tree finds in its box, whether it has them inside and whether it has them at all.
// usage: geos_sides LAYER...     each line is POLYGON ((..)) or POINT (..); prints processor seconds and two counts
// built by bench/sides.sh: cc -O2 geos_sides.c -lgeos_c (Debian: libgeos-dev)
#define _GNU_SOURCE
#include <geos_c.h>
#include <stdio.h>
#include <stdlib.h>
#include <string.h>
#include <time.h>

static const GEOSPreparedGeometry *ring;
static long inside, touched;

static void ask(void *point, void *unused) {
    (void)unused;
    inside += GEOSPreparedContainsProperly(ring, point) == 1;
    touched += GEOSPreparedIntersects(ring, point) == 1;
}

static double seconds(void) {
    struct timespec now;
    clock_gettime(CLOCK_PROCESS_CPUTIME_ID, &now);
    return now.tv_sec + now.tv_nsec / 1e9;
}

struct shapes {
    GEOSGeometry **items;
    size_t count, room;
};

static void add(struct shapes *list, GEOSGeometry *item) {
    if (list->count == list->room) {
        list->room = list->room ? 2 * list->room : 1024;
        list->items = realloc(list->items, list->room * sizeof *list->items);
        if (!list->items) exit(2);
    }
    list->items[list->count++] = item;
}

int main(int count, char **names) {
    double taken = 0;
    initGEOS(NULL, NULL);
    GEOSWKTReader *reader = GEOSWKTReader_create();
    for (int at = 1; at < count; at++) {
        FILE *file = fopen(names[at], "r");
        if (!file) return 2;
        struct shapes rings = {0}, points = {0};
        char *line = NULL;
        size_t room = 0;
        while (getline(&line, &room, file) > 0) {
            GEOSGeometry *shape = GEOSWKTReader_read(reader, line);
            if (!shape) return 2;
            if (GEOSGeomTypeId(shape) == GEOS_POINT) {
                add(&points, shape);
                continue;
            }
            add(&rings, shape);
            const GEOSCoordSequence *places = GEOSGeom_getCoordSeq(GEOSGetExteriorRing(shape));
            unsigned last;
            GEOSCoordSeq_getSize(places, &last);
            for (unsigned k = 0; k + 1 < last; k++) {
                double x, y;
                GEOSCoordSeq_getXY(places, k, &x, &y);
                add(&points, GEOSGeom_createPointFromXY(x, y));
            }
        }
        fclose(file);
        double before = seconds();
        GEOSSTRtree *tree = GEOSSTRtree_create(10);
        for (size_t k = 0; k < points.count; k++) GEOSSTRtree_insert(tree, points.items[k], points.items[k]);
        for (size_t k = 0; k < rings.count; k++) {
            ring = GEOSPrepare(rings.items[k]);
            GEOSSTRtree_query(tree, rings.items[k], ask, NULL);
            GEOSPreparedGeom_destroy(ring);
        }
        taken += seconds() - before;
    }
    printf("%.2f %ld %ld\n", taken, inside, touched);
    return 0;
}
