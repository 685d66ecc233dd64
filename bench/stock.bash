# Patterns of the kinds that stock profiles have: sourced by bench/run and bench/compare.
# shellcheck shell=bash

# So many patterns: exact paths, stars in a folder and below it, groups of folders, classes in names.
patterns() {
    awk -v count="$1" 'BEGIN {
        split("bin sbin lib lib64 share etc var run proc sys dev home tmp opt srv", top)
        split("ssl certs fonts python3 perl5 cups nginx mysql samba dbus systemd locale zoneinfo gconv log", middle)
        for (i = 0; i < count; i++) {
            folder = "/" top[i % 15 + 1] "/" middle[int(i / 15) % 15 + 1] (i >= 225 ? "/" int(i / 225) : "")
            kind = i % 10
            if (kind < 4) print folder "/file" i ".conf"
            else if (kind < 6) print folder "/dir" i "/*"
            else if (kind == 6) print folder "/dir" i "/**"
            else if (kind == 7) print "/{usr/,}" substr(folder, 2) "/lib" i "-[0-9]*.so*"
            else if (kind == 8) print folder "/{,extra/}name" i "{,.gz,.old}"
            else print folder "/*/status" i
        }
    }'
}
