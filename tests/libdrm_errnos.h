/* For tests: what the cases of libdrm_errnos share. The device has a primary plane for each of two
 * CRTCs, and an overlay plane for both; each encoder drives both.
 */
#ifndef ZIRKOSHE_TESTS_LIBDRM_ERRNOS_H
#define ZIRKOSHE_TESTS_LIBDRM_ERRNOS_H

#include <stdint.h>
#include <drm.h>

/* an id that no object has */
#define NO_ID 0x40000000U
#define SIDE 64
#define MOST_PLANES 8

struct context {
    /* the current master, a client that joined it, and a render client or -1 */
    int card;
    int guest;
    int render;
    /* a lessee of the second CRTC, its primary plane and the second connector, once there is one */
    int lessee;
    uint32_t lessee_id;
    uint32_t crtcs[2];
    /* the primary planes, the overlay plane, and the cursor planes */
    uint32_t planes[MOST_PLANES];
    uint32_t encoders[2];
    uint32_t connectors[2];
    uint32_t handle;
    /* framebuffers of 64 by 64 pixels, of a quarter of it, and of 64 by 64 pixels of 16 bits */
    uint32_t fb;
    uint32_t other_fb;
    uint32_t small_fb;
    uint32_t narrow_fb;
};

/* A request that is to fail or not: it returns 0, or -1 with an errno. */
struct trial {
    const char *name;
    int (*make)(struct context *context);
};

/* A property of an object, and its value. A name that the object lacks is a property that does not
 * exist. */
struct set {
    uint32_t object;
    const char *name;
    uint64_t value;
};

/* Each table ends with a row without a name. */
extern const struct trial core_trials[];
extern const struct trial sync_trials[];
extern const struct trial mode_trials[];
extern const struct trial blank_trials[];
extern const struct trial atomic_trials[];
extern const struct trial lease_trials[];

/* A mode of this size. A frame takes a fifth of a second. */
struct drm_mode_modeinfo mode_of(uint32_t width, uint32_t height);

/* An atomic commit by this descriptor. */
int commit_of(struct context *context, int file, uint32_t flags, const struct set *sets,
              uint32_t count);

/* MODE_SETCRTC of a framebuffer on a CRTC and a connector by their positions, or of none. */
int show(struct context *context, int crtc, uint32_t fb, int connector);

#endif
