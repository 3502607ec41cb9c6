# An image with the programs that ./install built into bin/. Sockets are bound to 127.0.0.1 alone, so clients run in the container's own
# network: gb_ctl by `podman exec`, or anything with `--network container:NAME` or `--network host`.
#
#     ./install && podman build -t foqradesh .
#     podman run --rm -i --name foqradesh foqradesh --nodes 3 --version 2 --base-port 24000 <server.keys
#     podman exec -i foqradesh gb_ctl --port 24000 --node 0 status <admin
FROM docker.io/library/debian:stable-slim
COPY bin/gb_serve bin/gb_peer bin/gb_ctl bin/gb_web bin/gb_sim bin/gb_audit /usr/local/bin/
USER nobody
ENTRYPOINT ["/usr/local/bin/gb_serve"]
