# An agent in a container, by the folder of an archive of the release that was unpacked:
#   podman build -t rignoldad FOLDER
#   podman run -v /etc/rignolda:/etc/rignolda -v rignolda:/var/lib/rignolda --network host rignoldad
FROM debian:12-slim
RUN apt-get update -q && apt-get install -y -q --no-install-recommends libssl3 && \
    rm -rf /var/lib/apt/lists/*
RUN --mount=type=bind,target=/archive PREFIX=/usr /archive/install.sh
USER rignolda
ENTRYPOINT ["rignoldad"]
CMD ["/etc/rignolda/agent.toml"]
