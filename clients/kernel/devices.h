/* A DRM device: its nodes, its driver and its mode objects. */
#ifndef DRM_SCRIPT_DEVICES_H
#define DRM_SCRIPT_DEVICES_H

#include <stdbool.h>
#include <stdint.h>

#include "numbers.h"

#define MOST_OBJECTS 64
#define MOST_PATH 64

struct device {
    char card[MOST_PATH];
    /* an empty text if there is no render node */
    char render[MOST_PATH];
    char driver[MOST_PATH];
    /* the driver is the module of this folder, which has driver calls */
    bool has_driver_calls;
    /* how many CRTCs, planes, encoders and connectors there are */
    unsigned counts[4];
    /* the mode objects by their positions, as the script numbers them */
    struct numbers objects;
};

/* Finds the card with this driver, and its render node. Returns whether there is one. */
bool find_device(struct device *device, const char *driver);

/* Reads the card of this node, and finds its render node. Returns whether it could be opened. */
bool read_named_device(struct device *device, const char *card);

/* Prints the mode objects as a topology file. */
void print_topology(const struct device *device);

#endif
