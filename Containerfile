FROM debian:12-slim
COPY quadq_*_amd64.deb /tmp/
RUN apt-get update && apt-get install -y --no-install-recommends /tmp/quadq_*_amd64.deb \
    && rm -rf /tmp/quadq_*_amd64.deb /var/lib/apt/lists/*
WORKDIR /data
ENTRYPOINT ["quadq-remesh"]
