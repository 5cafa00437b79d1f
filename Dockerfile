# hikebox, zsched and the Python package: docker build -t hikebox . && docker run --rm hikebox storm 'recurs(3)'
# The page of `hikebox lab`, on the host's own address: docker run --rm --init --network host hikebox lab --no-browser
# zsched: docker run --rm -i --entrypoint zsched hikebox plan --steps 3 <plans/back-off.json
FROM debian:bookworm-slim AS build
RUN apt-get update && apt-get install -y --no-install-recommends python3-venv
COPY python /hikebox/python
COPY dist /hikebox/dist
RUN python3 -m venv /opt/hikebox && /opt/hikebox/bin/pip install --no-index /hikebox/python
RUN install -t /opt/hikebox/bin "/hikebox/dist/$(uname -m | sed /x86_64/d)/zsched"

FROM debian:bookworm-slim
RUN apt-get update && apt-get install -y --no-install-recommends python3 && rm -rf /var/lib/apt/lists/*
COPY --from=build /opt/hikebox /opt/hikebox
ENV PATH=/opt/hikebox/bin:$PATH
USER nobody
ENTRYPOINT ["hikebox"]
