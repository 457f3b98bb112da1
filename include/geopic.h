/* Places a drawn scene on the Earth: a scene stream in; positions (longitude, latitude), feature lines and warnings
 * out, fit for RFC 7946. One call, no allocation, no global state: it may be called from several threads at once on
 * slices that do not overlap. */
#ifndef GEOPIC_H
#define GEOPIC_H

#include <stddef.h>
#include <stdint.h>

#ifdef __cplusplus
extern "C" {
#endif

/* A call takes at most this many bytes of stack, whatever the stream, and no other memory but what it is lent. */
#define GEOPIC_STACK 65536

/* The panel's tier says how many vertices one scene may draw: GEOPIC_TIER_ENTRY 20,000, every other number 2,000,000.
 * Nothing refuses a tier. A stream that is accepted in the entry tier without GEOPIC_WARNING_ALLOWANCE_SPENT comes out
 * the same in every tier, but for `left`. With that warning it is coarser there, and the larger tier may need more
 * room. */
enum { GEOPIC_TIER_ENTRY = 0, GEOPIC_TIER_LARGER = 1 };

/* The kinds of items, by their numbers in the stream. */
enum {
    GEOPIC_KIND_BOX = 0,
    GEOPIC_KIND_CIRCLE = 1,
    GEOPIC_KIND_ELLIPSE = 2,
    GEOPIC_KIND_ARC = 3,
    GEOPIC_KIND_LINE = 4,
    GEOPIC_KIND_ARROW = 5,
    GEOPIC_KIND_SPLINE = 6,
    GEOPIC_KIND_TEXT = 7,
    GEOPIC_KIND_DOT = 8,
    GEOPIC_KIND_BRACE = 9,
    GEOPIC_KIND_BLOCK = 10,
    GEOPIC_KINDS = 11 /* so many */
};

/* Where a feature belongs: on the map, or on the screen. */
enum { GEOPIC_GEOGRAPHIC = 0, GEOPIC_SCREEN = 1 };

/* The kind table says it of each kind, by its number: GEOPIC_GEOGRAPHIC, GEOPIC_SCREEN or GEOPIC_NOT_DRAWN, which a
 * block always is. What an item draws goes by its kind, and only its placement by the table. An item of a screen class
 * is on the screen also where its kind is geographic. One that is hidden or of a kind that is not drawn, whatever its
 * class, gives no feature and no warning, needs no room and takes no vertex. It keeps its index, and its label still
 * names its point. */
enum { GEOPIC_NOT_DRAWN = 2 };

/* The built-in kind table: texts and dots on the screen, blocks not drawn, all others on the map. */
static const uint8_t GEOPIC_BUILT_IN_KINDS[GEOPIC_KINDS] = {0, 0, 0, 0, 0, 0, 0, 1, 1, 0, 2};

/* A refusal: `number` is 1 to 20 and everything else 0. Acceptance: `number` is 0. */
typedef struct {
    uint32_t number;
    uint32_t method;   /* GEOPIC_ANCHOR, GEOPIC_TWO_POINTS or GEOPIC_HELMERT */
    uint32_t controls; /* control points used */
    uint32_t spent;    /* 1 if the vertex allowance was spent, exactly where warning 6 stands; else 0 */
    size_t positions;  /* used: whole positions, two doubles each */
    size_t features;   /* used: whole feature lines, six numbers each */
    size_t warnings;   /* used: whole warnings, two numbers each */
    size_t left;       /* what is left of the tier's vertices; 0 is possible where nothing fell short */
} geopic_answer;

/* Numbers of refusals. The first that applies, in this order, is given. */
enum {
    GEOPIC_KIND_TABLE = 20,    /* the kind table is not 11 bytes, an entry is above 2, or that of block is not 2 */
    GEOPIC_SIZE = 1,           /* the stream is empty, not whole blocks of 512 bytes, or over 65,536 blocks */
    GEOPIC_CHECK = 2,          /* a block's check is wrong */
    GEOPIC_LAYOUT = 3,         /* a record breaks the layout or is cut off, or the end record is missing */
    GEOPIC_LIMIT = 4,          /* a float is not finite, or a measure of the canvas exceeds 1,000,000 */
    GEOPIC_FLATTEN = 5,        /* flatten is zero or negative */
    GEOPIC_STEP = 19,          /* the step is below 1 or above 1,000 metres */
    GEOPIC_RESCALE = 6,        /* rescale is zero or negative */
    GEOPIC_FRAME = 7,          /* the frame is not Mercator */
    GEOPIC_OUTSIDE = 8,        /* a control point or the anchor lies beyond latitude 85.06 or longitude 180 */
    GEOPIC_TOO_MANY = 9,       /* more than 64 control points */
    GEOPIC_NO_ANCHOR = 10,     /* neither control point nor anchor */
    GEOPIC_DEGENERATE = 11,    /* the control points fit no similarity */
    GEOPIC_SCALE = 12,         /* with fewer than two control points: the declared scale is zero or negative */
    GEOPIC_VIEW_SCALE = 13,    /* with fewer than two control points: geo_px, and no positive view_scale */
    GEOPIC_MAX_SCALE = 14,     /* the effective scale is not finite or exceeds 1e9 metres an inch */
    GEOPIC_WORK_ROOM = 15,     /* work holds fewer points than a shape needs, see below */
    GEOPIC_POSITION_ROOM = 16, /* positions do not fit their slice */
    GEOPIC_FEATURE_ROOM = 17,  /* a feature line does not fit */
    GEOPIC_WARNING_ROOM = 18   /* a warning does not fit */
};

/* How the registration was found. */
enum {
    GEOPIC_ANCHOR = 0,     /* by the anchor, or about one control point */
    GEOPIC_TWO_POINTS = 1, /* by two control points */
    GEOPIC_HELMERT = 2     /* by the least-squares fit to more of them */
};

/* Kinds of warnings. A warning is two numbers, its kind and an index, 0 where none applies. */
enum {
    GEOPIC_WARNING_VIEW_SCALE = 1,       /* view_scale is ignored */
    GEOPIC_WARNING_UNRESOLVED = 2,       /* a control point does not resolve: the index of the host feature, or of the
                                            `_lon` variable; 0 for half an anchor */
    GEOPIC_WARNING_OVERRIDDEN = 3,       /* a host feature overrides it: the index of the `_lon` variable */
    GEOPIC_WARNING_IGNORED = 4,          /* something is ignored because control points exist */
    GEOPIC_WARNING_MISSING_GEOMETRY = 5, /* the item lacks its geometry */
    GEOPIC_WARNING_ALLOWANCE_SPENT = 6   /* the vertex allowance was spent */
};

/* A feature line is six numbers: the item's index from 0; the geometry; the role; the placement; the part (0, or 1 +
 * the path's index from 0 where an item has more than one path); and how many positions it has. They stand in
 * `positions` directly behind those of the lines before it, longitude then latitude, in degrees. A line has two or
 * more, a ring four or more, its last bit-identical to its first; all are finite. */
enum { GEOPIC_POINT = 0, GEOPIC_LINE = 1, GEOPIC_POLYGON = 2 /* of one ring */ };
enum { GEOPIC_DRAWN = 0, GEOPIC_FILL = 1 /* a separate fill */ };

/* The step is the stream's option 7, 1 to 1,000 metres, 100 where it is absent. A straight edge is cut into equal parts
 * no longer than the step, but into 100,000 at most. A full curve (a circle, an ellipse by its longer radius, the
 * corners of a rounded box together) has so many vertices that they are no further apart around it, or more by the
 * tolerance of curves, but 32 at least and 4,096 at most. Where the vertex allowance is spent there are fewer. */

/* Work must hold P + F + 1 points, two doubles each, for every line, path and ring of the stream: P its points,
 * flattened, and closed where it is marked closed or is a ring; F those of its fill outline, flattened and closed, 0
 * without one, used or not. They are counted before straight edges are densified, and also where they are too few to
 * draw.
 *
 * Lengths count bytes, doubles and numbers, not positions or lines. A length of 0 may come with any pointer that is not
 * null. The stream and the kind table are only read.
 *
 *            1 to 14, 19, 20   15 to 18     accepted
 * work       untouched         all zero     all zero
 * the rest   untouched         all zero     the used part written, the tail untouched */
geopic_answer geopic_place(const uint8_t *stream, size_t stream_length, const uint8_t *kinds, size_t kinds_length,
                           uint32_t tier, double *work, size_t work_length, double *positions,
                           size_t positions_length, uint32_t *features, size_t features_length, uint32_t *warnings,
                           size_t warnings_length);

#ifdef __cplusplus
}
#endif

#endif
