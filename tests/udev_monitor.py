#!/usr/bin/env python3
"""Prints each message about the subsystem drm that libudev receives, as its properties in a line. It ends after as many as its argument says."""
import ctypes
import select
import sys

udev = ctypes.CDLL("libudev.so.1")
POINTER, TEXT = ctypes.c_void_p, ctypes.c_char_p
for name, result, *arguments in (
    ("udev_new", POINTER),
    ("udev_monitor_new_from_netlink", POINTER, POINTER, TEXT),
    ("udev_monitor_filter_add_match_subsystem_devtype", ctypes.c_int, POINTER, TEXT, TEXT),
    ("udev_monitor_enable_receiving", ctypes.c_int, POINTER),
    ("udev_monitor_get_fd", ctypes.c_int, POINTER),
    ("udev_monitor_receive_device", POINTER, POINTER),
    ("udev_device_get_property_value", TEXT, POINTER, TEXT),
):
    getattr(udev, name).restype = result
    getattr(udev, name).argtypes = arguments

monitor = udev.udev_monitor_new_from_netlink(udev.udev_new(), b"udev")
udev.udev_monitor_filter_add_match_subsystem_devtype(monitor, b"drm", None)
udev.udev_monitor_enable_receiving(monitor)
print("listens", flush=True)
for _ in range(int(sys.argv[1])):
    select.select([udev.udev_monitor_get_fd(monitor)], [], [])
    device = udev.udev_monitor_receive_device(monitor)
    names = (b"ACTION", b"DEVNAME", b"HOTPLUG", b"CONNECTOR", b"ID_SEAT")
    print(
        *(f"{name.decode()}={(udev.udev_device_get_property_value(device, name) or b'-').decode()}" for name in names),
        flush=True,
    )
