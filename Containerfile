# An image with the proved program and the Python package, for systems other than Linux on x86-64:
#
#     podman build -t fezdrok .
#     podman run -i --rm fezdrok run < crates/topo_examples/data/across_the_cheap_side.json
#     podman run -i --rm --entrypoint python3 fezdrok
FROM --platform=linux/amd64 docker.io/library/debian:bookworm-slim
RUN apt-get update \
    && apt-get install -y --no-install-recommends python3 python3-networkx python3-pip python3-setuptools python3-wheel \
    && rm -rf /var/lib/apt/lists/*
COPY . /opt/fezdrok
RUN cd /opt/fezdrok \
    && ./package \
    && pip install --no-index --no-deps --no-cache-dir --break-system-packages dist/*.whl \
    && rm -rf dist \
    && ln -s /opt/fezdrok/prebuilt/x86_64-linux/planar /usr/local/bin/planar
ENTRYPOINT ["planar"]
