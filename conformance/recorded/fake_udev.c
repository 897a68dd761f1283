// Makes a browser find a hidraw device that the kernel does not have, to record the browser on a machine without
// /dev/uhid. Replaces libudev, with functions that find only this device, and the ioctls that read a report descriptor.
//
//     gcc -shared -fPIC -Wl,-soname,libudev.so.1 -Wl,--version-script=fake_udev.map -o libudev.so.1 fake_udev.c
//     FAKE_HIDRAW=/dev/pts/3 FAKE_SYSFS=FOLDER LD_PRELOAD=./libudev.so.1 chromium ..
//
// FAKE_HIDRAW is the file to which the browser writes packets, and from which it reads packets. FOLDER must contain a
// file report_descriptor.
#define _GNU_SOURCE
#include <dlfcn.h>
#include <linux/hidraw.h>
#include <stdarg.h>
#include <stdbool.h>
#include <stdio.h>
#include <stdlib.h>
#include <string.h>
#include <sys/ioctl.h>
#include <sys/types.h>
#include <unistd.h>

struct udev {
    int held;
};

struct udev_device {
    bool is_parent;
};

// A search for devices. It finds the device if there is no filter for subsystems, or one of them is for hidraw.
struct udev_enumerate {
    bool is_matched;
    bool wants_hidraw;
};

struct udev_monitor {
    int ends[2];
};

struct udev_list_entry {
    char path[256];
};

static struct udev context;
static struct udev_device node = {false};
static struct udev_device parent = {true};
static struct udev_list_entry entry;

static const char *read_setting(const char *name) {
    const char *found = getenv(name);
    return found == NULL ? "" : found;
}

struct udev *udev_new(void) {
    return &context;
}

struct udev *udev_ref(struct udev *udev) {
    return udev;
}

struct udev *udev_unref(struct udev *udev) {
    (void)udev;
    return NULL;
}

struct udev_enumerate *udev_enumerate_new(struct udev *udev) {
    (void)udev;
    return calloc(1, sizeof(struct udev_enumerate));
}

struct udev_enumerate *udev_enumerate_unref(struct udev_enumerate *found) {
    free(found);
    return NULL;
}

int udev_enumerate_add_match_subsystem(struct udev_enumerate *found, const char *subsystem) {
    found->is_matched = true;
    found->wants_hidraw |= strcmp(subsystem, "hidraw") == 0;
    return 0;
}

int udev_enumerate_add_match_property(struct udev_enumerate *found, const char *name, const char *value) {
    (void)found, (void)name, (void)value;
    return 0;
}

int udev_enumerate_scan_devices(struct udev_enumerate *found) {
    (void)found;
    return 0;
}

struct udev_list_entry *udev_enumerate_get_list_entry(struct udev_enumerate *found) {
    snprintf(entry.path, sizeof entry.path, "%s/hidraw/hidraw0", read_setting("FAKE_SYSFS"));
    return found->wants_hidraw || !found->is_matched ? &entry : NULL;
}

struct udev_list_entry *udev_list_entry_get_next(struct udev_list_entry *list) {
    (void)list;
    return NULL;
}

const char *udev_list_entry_get_name(struct udev_list_entry *list) {
    return list->path;
}

const char *udev_list_entry_get_value(struct udev_list_entry *list) {
    (void)list;
    return NULL;
}

struct udev_device *udev_device_new_from_syspath(struct udev *udev, const char *path) {
    (void)udev;
    return strstr(path, "hidraw0") == NULL ? NULL : &node;
}

struct udev_device *udev_device_new_from_devnum(struct udev *udev, char type, dev_t number) {
    (void)udev, (void)type, (void)number;
    return NULL;
}

struct udev_device *udev_device_new_from_subsystem_sysname(struct udev *udev, const char *subsystem, const char *name) {
    (void)udev, (void)name;
    return strcmp(subsystem, "hidraw") == 0 ? &node : NULL;
}

struct udev_device *udev_device_ref(struct udev_device *device) {
    return device;
}

struct udev_device *udev_device_unref(struct udev_device *device) {
    (void)device;
    return NULL;
}

struct udev_device *udev_device_get_parent(struct udev_device *device) {
    return device->is_parent ? NULL : &parent;
}

struct udev_device *udev_device_get_parent_with_subsystem_devtype(struct udev_device *device, const char *subsystem,
                                                                  const char *type) {
    (void)type;
    return !device->is_parent && strcmp(subsystem, "hid") == 0 ? &parent : NULL;
}

const char *udev_device_get_devnode(struct udev_device *device) {
    return device->is_parent ? NULL : read_setting("FAKE_HIDRAW");
}

const char *udev_device_get_syspath(struct udev_device *device) {
    return device->is_parent ? read_setting("FAKE_SYSFS")
                             : udev_enumerate_get_list_entry(&(struct udev_enumerate){0})->path;
}

const char *udev_device_get_sysname(struct udev_device *device) {
    return device->is_parent ? "0003:1209:0001.0001" : "hidraw0";
}

const char *udev_device_get_subsystem(struct udev_device *device) {
    return device->is_parent ? "hid" : "hidraw";
}

const char *udev_device_get_devtype(struct udev_device *device) {
    (void)device;
    return NULL;
}

const char *udev_device_get_driver(struct udev_device *device) {
    return device->is_parent ? "hid-generic" : NULL;
}

const char *udev_device_get_action(struct udev_device *device) {
    (void)device;
    return "add";
}

dev_t udev_device_get_devnum(struct udev_device *device) {
    (void)device;
    return 0;
}

int udev_device_get_is_initialized(struct udev_device *device) {
    (void)device;
    return 1;
}

const char *udev_device_get_sysattr_value(struct udev_device *device, const char *name) {
    (void)device, (void)name;
    return NULL;
}

struct udev_list_entry *udev_device_get_properties_list_entry(struct udev_device *device) {
    (void)device;
    return NULL;
}

const char *udev_device_get_property_value(struct udev_device *device, const char *name) {
    if (!device->is_parent) {
        return strcmp(name, "DEVNAME") == 0 ? read_setting("FAKE_HIDRAW") : NULL;
    }
    return strcmp(name, "HID_ID") == 0     ? "0003:00001209:00000001"
           : strcmp(name, "HID_NAME") == 0 ? "hidlog security key"
           : strcmp(name, "HID_UNIQ") == 0 ? "0"
           : strcmp(name, "HID_PHYS") == 0 ? "recorded"
                                           : NULL;
}

struct udev_monitor *udev_monitor_new_from_netlink(struct udev *udev, const char *name) {
    (void)udev, (void)name;
    struct udev_monitor *monitor = calloc(1, sizeof *monitor);
    if (monitor != NULL && pipe(monitor->ends) != 0) {
        free(monitor);
        return NULL;
    }
    return monitor;
}

struct udev_monitor *udev_monitor_unref(struct udev_monitor *monitor) {
    (void)monitor;
    return NULL;
}

int udev_monitor_filter_add_match_subsystem_devtype(struct udev_monitor *monitor, const char *subsystem,
                                                    const char *type) {
    (void)monitor, (void)subsystem, (void)type;
    return 0;
}

int udev_monitor_enable_receiving(struct udev_monitor *monitor) {
    (void)monitor;
    return 0;
}

int udev_monitor_get_fd(struct udev_monitor *monitor) {
    return monitor->ends[0];
}

struct udev_device *udev_monitor_receive_device(struct udev_monitor *monitor) {
    (void)monitor;
    return NULL;
}

// Reads the device's report descriptor from its file. Returns its size, or 0 if there is no file.
static size_t read_descriptor(unsigned char *to, size_t capacity) {
    char path[300];
    snprintf(path, sizeof path, "%s/report_descriptor", read_setting("FAKE_SYSFS"));
    FILE *file = fopen(path, "rb");
    size_t len = file == NULL ? 0 : fread(to, 1, capacity, file);
    if (file != NULL) {
        fclose(file);
    }
    return len;
}

// Returns whether an open file is the device, FAKE_HIDRAW.
static bool is_device(int file) {
    char path[64], found[256] = "";
    snprintf(path, sizeof path, "/proc/self/fd/%d", file);
    return readlink(path, found, sizeof found - 1) > 0 && strcmp(found, read_setting("FAKE_HIDRAW")) == 0;
}

int ioctl(int file, unsigned long request, ...) {
    va_list rest;
    va_start(rest, request);
    void *argument = va_arg(rest, void *);
    va_end(rest);
    struct hidraw_report_descriptor found = {0};
    if (request == HIDIOCGRDESCSIZE && is_device(file)) {
        *(int *)argument = (int)read_descriptor(found.value, sizeof found.value);
        return 0;
    }
    if (request == HIDIOCGRDESC && is_device(file)) {
        struct hidraw_report_descriptor *to = argument;
        to->size = (unsigned)read_descriptor(to->value, sizeof to->value);
        return 0;
    }
    int (*next)(int, unsigned long, ...) = (int (*)(int, unsigned long, ...))dlsym(RTLD_NEXT, "ioctl");
    return next(file, request, argument);
}
