# A container that has the released program alone; `make image` makes it, in release/out, where ./ccalc unpacks the program.
# To run it over the files of a folder: docker run --rm --platform linux/amd64 -v "$PWD:/here" ccalc lamp.cc
FROM scratch
COPY ccalc /ccalc
ENV GLIBC_TUNABLES=glibc.malloc.hugetlb=1
WORKDIR /here
ENTRYPOINT ["/ccalc"]
