// SPDX-License-Identifier: GPL-2.0-only
// The topology of a module's parameter.
#include <linux/bitops.h>
#include <linux/slab.h>
#include <linux/string.h>

#include "card.h"

// Reads the next number of a line. Returns whether there is one, from 1 to the most.
static bool read_number(char **line, unsigned int most, unsigned int *number)
{
    char *word = strsep(line, "+");

    return word && kstrtouint(word, 10, number) == 0 && *number >= 1 && *number <= most;
}

// The CRTCs of a line as a mask, and the first of them.
static bool read_crtcs(char *line, unsigned int most, u32 *mask, unsigned int *first)
{
    unsigned int number;

    *mask = 0;
    while (line) {
        if (!read_number(&line, most, &number))
            return false;
        if (!*mask)
            *first = number - 1;
        *mask |= BIT(number - 1);
    }
    return *mask != 0;
}

static bool read_plane(struct topology *topology, enum drm_plane_type type, char *line)
{
    unsigned int i = topology->planes++;

    topology->types[i] = type;
    return read_crtcs(line, topology->crtcs, &topology->plane_crtcs[i], &topology->first_crtcs[i]);
}

static bool read_encoder(struct topology *topology, char *line)
{
    unsigned int first;

    return read_crtcs(line, topology->crtcs, &topology->encoder_crtcs[topology->encoders++],
                      &first);
}

static bool read_connector(struct topology *topology, char *line)
{
    unsigned int encoder;

    if (!read_number(&line, topology->encoders, &encoder))
        return false;
    topology->connector_encoders[topology->connectors++] = encoder - 1;
    return true;
}

static bool read_line(struct topology *topology, char *line)
{
    char *word = strsep(&line, ":");

    if (strcmp(word, "crtcs") == 0)
        return read_number(&line, MOST_CRTCS, &topology->crtcs);
    if (topology->planes + topology->encoders + topology->connectors == MOST_OBJECTS)
        return false;
    if (strcmp(word, "plane") == 0)
        return read_plane(topology, DRM_PLANE_TYPE_OVERLAY, line);
    if (strcmp(word, "primary") == 0)
        return read_plane(topology, DRM_PLANE_TYPE_PRIMARY, line);
    if (strcmp(word, "cursor") == 0)
        return read_plane(topology, DRM_PLANE_TYPE_CURSOR, line);
    if (strcmp(word, "encoder") == 0)
        return read_encoder(topology, line);
    return strcmp(word, "connector") == 0 && read_connector(topology, line);
}

int zirkoshe_read_topology(struct topology *topology, const char *text)
{
    char *copy = kstrdup(text, GFP_KERNEL), *rest = copy, *line;
    bool reads = copy != NULL;

    memset(topology, 0, sizeof(*topology));
    while (reads && (line = strsep(&rest, ",")) != NULL)
        reads = read_line(topology, line);
    kfree(copy);
    return reads && topology->crtcs ? 0 : -EINVAL;
}
