// A DRM device: its nodes, its driver and its mode objects.
#include "devices.h"

#include <dirent.h>
#include <drm.h>
#include <fcntl.h>
#include <stdio.h>
#include <stdlib.h>
#include <string.h>
#include <sys/ioctl.h>
#include <unistd.h>

#include "driver_calls.h"

#define MOST_CARDS 16

enum kind { CRTCS, PLANES, ENCODERS, CONNECTORS };

static void read_driver(struct device *device, int file)
{
    struct drm_version version = {0};

    memset(device->driver, 0, sizeof(device->driver));
    version.name = device->driver;
    version.name_len = sizeof(device->driver) - 1;
    ioctl(file, DRM_IOCTL_VERSION, &version);
    device->has_driver_calls = strcmp(device->driver, ZIRKOSHE_DRIVER) == 0;
}

static void bind_all(struct device *device, enum kind kind, const uint32_t *ids, unsigned count)
{
    unsigned i;

    if (count > MOST_OBJECTS)
        count = MOST_OBJECTS;
    device->counts[kind] = count;
    for (i = 0; i < count; i++)
        bind_number(&device->objects, 0, ids[i]);
}

static void read_objects(struct device *device, int file)
{
    struct drm_set_client_cap planes_on = {DRM_CLIENT_CAP_UNIVERSAL_PLANES, 1};
    uint32_t ids[4][MOST_OBJECTS] = {{0}};
    struct drm_mode_get_plane_res planes = {(uintptr_t)ids[PLANES], MOST_OBJECTS};
    struct drm_mode_card_res card = {
        .crtc_id_ptr = (uintptr_t)ids[CRTCS],
        .count_crtcs = MOST_OBJECTS,
        .encoder_id_ptr = (uintptr_t)ids[ENCODERS],
        .count_encoders = MOST_OBJECTS,
        .connector_id_ptr = (uintptr_t)ids[CONNECTORS],
        .count_connectors = MOST_OBJECTS,
    };

    memset(&device->objects, 0, sizeof(device->objects));
    memset(device->counts, 0, sizeof(device->counts));
    device->objects.first = 1;
    if (ioctl(file, DRM_IOCTL_SET_CLIENT_CAP, &planes_on) != 0
        || ioctl(file, DRM_IOCTL_MODE_GETRESOURCES, &card) != 0
        || ioctl(file, DRM_IOCTL_MODE_GETPLANERESOURCES, &planes) != 0)
        return;
    bind_all(device, CRTCS, ids[CRTCS], card.count_crtcs);
    bind_all(device, PLANES, ids[PLANES], planes.count_planes);
    bind_all(device, ENCODERS, ids[ENCODERS], card.count_encoders);
    bind_all(device, CONNECTORS, ids[CONNECTORS], card.count_connectors);
}

// Reads the driver and the mode objects of the card. Returns whether it could be opened.
static bool read_device(struct device *device)
{
    int file = open(device->card, O_RDWR | O_CLOEXEC);

    if (file < 0)
        return false;
    read_driver(device, file);
    read_objects(device, file);
    close(file);
    return true;
}

// The render node of a card is the one of the same device in /sys.
static void find_render_node(struct device *device, unsigned card)
{
    char path[MOST_PATH];
    struct dirent *entry;
    DIR *folder;

    device->render[0] = '\0';
    snprintf(path, sizeof(path), "/sys/class/drm/card%u/device/drm", card);
    folder = opendir(path);
    while (folder && (entry = readdir(folder)) != NULL) {
        if (strncmp(entry->d_name, "renderD", 7) == 0)
            snprintf(device->render, MOST_PATH, "/dev/dri/%.40s", entry->d_name);
    }
    if (folder)
        closedir(folder);
}

bool find_device(struct device *device, const char *driver)
{
    unsigned card;

    for (card = 0; card < MOST_CARDS; card++) {
        snprintf(device->card, MOST_PATH, "/dev/dri/card%u", card);
        if (read_device(device) && strcmp(device->driver, driver) == 0) {
            find_render_node(device, card);
            return true;
        }
    }
    return false;
}

bool read_named_device(struct device *device, const char *card)
{
    const char *digits = strrchr(card, 'd');

    snprintf(device->card, MOST_PATH, "%s", card);
    find_render_node(device, digits ? (unsigned)strtoul(digits + 1, NULL, 10) : 0);
    return read_device(device);
}

static void print_crtcs(const char *word, unsigned mask)
{
    unsigned crtc;

    printf("%s", word);
    for (crtc = 0; crtc < 32; crtc++) {
        if (mask & 1U << crtc)
            printf(" %u", crtc + 1);
    }
    printf("\n");
}

// The value of the property `type` of a plane, or that of an overlay plane if it has none.
static uint64_t type_of_plane(int file, uint32_t plane)
{
    uint32_t properties[MOST_OBJECTS];
    uint64_t values[MOST_OBJECTS];
    struct drm_mode_obj_get_properties all = {(uintptr_t)properties, (uintptr_t)values,
                                              MOST_OBJECTS, plane, DRM_MODE_OBJECT_PLANE};
    unsigned i;

    if (ioctl(file, DRM_IOCTL_MODE_OBJ_GETPROPERTIES, &all) != 0)
        return 0;
    for (i = 0; i < all.count_props && i < MOST_OBJECTS; i++) {
        struct drm_mode_get_property property = {.prop_id = properties[i]};

        if (ioctl(file, DRM_IOCTL_MODE_GETPROPERTY, &property) == 0
            && strcmp(property.name, "type") == 0)
            return values[i];
    }
    return 0;
}

static void print_plane(int file, uint32_t id)
{
    static const char *const words[] = {"plane", "primary", "cursor"};
    struct drm_mode_get_plane plane = {.plane_id = id};
    uint64_t type = type_of_plane(file, id);

    ioctl(file, DRM_IOCTL_MODE_GETPLANE, &plane);
    print_crtcs(words[type < 3 ? type : 0], plane.possible_crtcs);
}

static void print_encoder(int file, uint32_t id)
{
    struct drm_mode_get_encoder encoder = {.encoder_id = id};

    ioctl(file, DRM_IOCTL_MODE_GETENCODER, &encoder);
    print_crtcs("encoder", encoder.possible_crtcs);
}

static void print_connector(const struct device *device, int file, uint32_t id)
{
    uint32_t encoders[MOST_OBJECTS] = {0}, script = 0;
    struct drm_mode_get_connector connector = {
        .connector_id = id, .encoders_ptr = (uintptr_t)encoders, .count_encoders = MOST_OBJECTS};

    ioctl(file, DRM_IOCTL_MODE_GETCONNECTOR, &connector);
    find_script_number(&device->objects, encoders[0], &script);
    printf("connector %u\n", script - device->counts[CRTCS] - device->counts[PLANES]);
}

void print_topology(const struct device *device)
{
    struct drm_set_client_cap planes_on = {DRM_CLIENT_CAP_UNIVERSAL_PLANES, 1};
    int file = open(device->card, O_RDWR | O_CLOEXEC);
    unsigned planes = device->counts[CRTCS] + device->counts[PLANES];
    unsigned encoders = planes + device->counts[ENCODERS], i;

    ioctl(file, DRM_IOCTL_SET_CLIENT_CAP, &planes_on);
    printf("crtcs %u\n", device->counts[CRTCS]);
    for (i = device->counts[CRTCS]; i < device->objects.count; i++) {
        uint32_t id = device->objects.pairs[i].kernel;

        if (i < planes)
            print_plane(file, id);
        else if (i < encoders)
            print_encoder(file, id);
        else
            print_connector(device, file, id);
    }
    close(file);
}
