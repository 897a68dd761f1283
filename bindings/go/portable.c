//go:build !linux || (!amd64 && !arm64) || hidlog_portable

// Compiles the portable C library as part of the Go package, on systems without a prebuilt library and in builds with
// the tag hidlog_portable. hidlog.c is in lib/portable; in a clone of the repository, bindings/c/sources.sh writes it.
#include "hidlog.c"
