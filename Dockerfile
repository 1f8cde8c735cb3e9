# The image of a release. Build it in the folder of the unpacked release, and run it on the files of the current folder:
#
#     docker build -t sizing .
#     docker run --rm -v "$PWD:/work" sizing ask --strict shop.toml shop.json
FROM debian:bookworm-slim
COPY bin/ /usr/local/bin/
COPY share/ /usr/local/share/
COPY VERSION PROVED /usr/local/share/doc/sizing/
WORKDIR /work
ENTRYPOINT ["sizing"]
