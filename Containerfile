# An image in which this repository is proved, built and tested. The kit is the folder that `rt doc` names the first page of; it isn't
# ours to give, so it is an argument, a path below the build's context:
#     podman build --build-arg KIT=rattle -t lanyardyuzu -f Containerfile ..
#     podman run --rm -it -v "$PWD:/work" lanyardyuzu make
# KIT in .. is a copy of that folder. A build takes some 5 GB of disk beside its 18 GB, and 2.5 GB of memory a processor.
FROM docker.io/library/debian:12
ARG KIT
RUN apt-get update && apt-get install -y --no-install-recommends ca-certificates cargo cmake file g++ gcc gdb git libdw1 make \
    pkg-config procps python3 python3-jsonschema shellcheck util-linux valgrind xz-utils && rm -rf /var/lib/apt/lists/*
COPY ${KIT} /opt/rattle
RUN ln -s /opt/rattle/bin/rt /usr/local/bin/rt
WORKDIR /work
CMD ["sh"]
