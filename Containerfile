# What the gate (.ci/run) and its tests ask for, by Debian's packages: all but the toolchain. Three folders
# are to be mounted: a toolchain at /opt/rattle, a folder for what `rt ci` keeps at /opt/rattle-kept, and a
# clone of this repository at /telgovan.
FROM docker.io/library/debian:12-slim

# Each group has a comment that says which step or test asks for it.
RUN apt-get update && apt-get install --yes --no-install-recommends \
# every step
    git procps python3 \
# the library, and hosts in C and Rust (bindings/build, .ci/bindings, bindings/c/check)
    binutils cargo gcc libc6-dev pkg-config rust-clippy rustc valgrind \
# what C sees of the library (release/abi.py)
    abigail-tools \
# the page (.ci/web)
    chromium firefox-esr \
# tests/run and bindings/python
    clang graphviz libpcap-dev llvm man-db mypy openssl prometheus python3-mypy python3-numpy strace systemd tcpdump \
# what a user installs (.ci/release)
    dpkg-dev lintian python3-venv \
    && rm -rf /var/lib/apt/lists/* \
    && git config --system --add safe.directory /telgovan \
    && mkdir -p /opt/rattle /opt/rattle-kept /telgovan

ENV LANG=C.UTF-8 PATH=/opt/rattle/bin:/usr/local/sbin:/usr/local/bin:/usr/sbin:/usr/bin:/sbin:/bin
WORKDIR /telgovan
CMD [".ci/run"]
