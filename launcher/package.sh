# shellcheck shell=bash
# ./mpwb package [--deb]. What is installed, packed: as an archive that answers where it is unpacked, and as a Debian package. The bytes of both follow
# from the files alone, and from one time that all of them get: that of SOURCE_DATE_EPOCH, or else of the last commit.

release=""   # the number of the program's version
packed_at="" # that time, in seconds

start_package() {
    local library debian=""
    case $#$* in 0) ;; 1--deb) debian=yes ;; *) refuse "./mpwb package [--deb]" ;; esac
    need_sources package
    need_built
    if [ -n "$debian" ]; then need_dpkg; fi
    find_time
    umask 022 # (all users may run what is packed)
    begin_work
    release=$(run --version)
    release=${release##* }
    library=$(least_library)
    gather "$room/files" "$(date -u -d "@$packed_at" +%F)" || fail_device write
    make_archive "nesthrim-$release" || fail_device write
    put_here "nesthrim-$release-x86_64.tar.gz"
    if [ -n "$debian" ]; then
        make_debian "$library" "$room/nesthrim_${release}_amd64.deb" || fail_device write
        put_here "nesthrim_${release}_amd64.deb"
    fi
    echo "mpwb: it runs on x86-64 Linux with the C library (glibc) $library or later"
}

need_dpkg() {
    if command -v dpkg-deb >/dev/null; then return; fi
    echo "mpwb: command dpkg-deb not found: --deb needs it" >&2
    exit 70
}

find_time() {
    packed_at=${SOURCE_DATE_EPOCH-}
    if [ -z "$packed_at" ] && [ -e "$top/.git" ]; then packed_at=$(git -C "$top" log -1 --format=%ct 2>/dev/null) || packed_at=""; fi
    if [ -z "$packed_at" ]; then packed_at=$(stat -c %Y "$program"); fi
    if [[ $packed_at =~ ^[0-9]{1,10}$ ]]; then return; fi
    echo "mpwb: SOURCE_DATE_EPOCH has to be a number of seconds" >&2
    exit 70
}

# the first version of the C library that has all that the program takes from it
least_library() { LC_ALL=C grep -aoE 'GLIBC_[0-9]+(\.[0-9]+)+' "$program" | sort -uV | tail -n 1 | cut -d _ -f 2; }

# what people read
copy_documents() {
    mkdir -p "$1/examples" "$1/python" &&
        cp -R "$top/README.md" "$top/CHANGELOG.md" "$top/docs" "$1" &&
        cp "$top/python/README.md" "$1/python" &&
        cp "$top"/examples/*.{net,play,desk} "$1/examples"
}

# puts a file of the room into the folder where the script was called
put_here() {
    put_file "$1" cat "$room/$1"
    echo "mpwb: $1 is written"
}

# --- the archive

make_archive() {
    local name=$1 at=$room/archive
    mkdir "$at" &&
        cp -R "$room/files/lib/nesthrim" "$at/$name" &&
        cp -R "$room/files/share" "$at/$name/share" &&
        copy_documents "$at/$name" &&
        chmod -R u=rwX,go=rX,ug-s "$at" &&
        tar -C "$at" -cf "$at.tar" --sort=name --format=gnu --owner=0 --group=0 --numeric-owner --mtime="@$packed_at" "$name" &&
        gzip -9n <"$at.tar" >"$room/$name-x86_64.tar.gz"
}

# --- the Debian package

make_debian() {
    local library=$1 file=$2 root=$room/debian share=$room/debian/usr/share
    mkdir -p "$root/DEBIAN" "$share/doc/nesthrim" &&
        cp -R "$room"/files/* "$root/usr" &&
        mv "$share/zsh/site-functions" "$share/zsh/vendor-completions" &&
        gzip -9n "$share/man/man1/mpwb.1" &&
        copy_documents "$share/doc/nesthrim" &&
        write_copyright >"$share/doc/nesthrim/copyright" &&
        (cd "$root" && find usr -type f -print0 | LC_ALL=C sort -z | xargs -0 md5sum) >"$root/DEBIAN/md5sums" &&
        write_control "$library" "$(kilobytes_in "$root/usr")" >"$root/DEBIAN/control" &&
        chmod -R u=rwX,go=rX,ug-s "$root" &&
        find "$root" -exec touch -h -d "@$packed_at" {} + &&
        SOURCE_DATE_EPOCH=$packed_at DPKG_DEB_THREADS_MAX=1 dpkg-deb --root-owner-group -Zxz --build "$root" "$file" >/dev/null
}

# what the files in a folder have together, each in whole kilobytes
kilobytes_in() { find "$1" -type f -printf '%s\n' | awk '{ sum += int(($1 + 1023) / 1024) } END { print sum }'; }

write_control() {
    cat <<EOF
Package: nesthrim
Version: $release
Section: electronics
Priority: optional
Architecture: amd64
Maintainer: Nesthrim maintainers <maintainers@users.noreply.nesthrim.example>
Installed-Size: $2
Depends: libc6 (>= $1), bash (>= 4.4)
Recommends: python3 (>= 3.9)
Description: workbench for micropipelines
 From a netlist of event modules with delays it tells the waveform of every
 wire, the rules that the circuit breaks, and the reasons. Each function of
 the program is proved to compute what the netlist means.
 .
 The commands stress and races need Python.
EOF
}

write_copyright() {
    echo "Nesthrim may be used by either of two licences, as you like. One is the Apache License 2.0,"
    printf 'which is in /usr/lib/nesthrim/LICENSE-APACHE. The other one is this:\n\n'
    cat "$top/LICENSE-MIT"
}
