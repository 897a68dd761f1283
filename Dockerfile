# The program alone, which needs nothing beside it: docker build -t hidlog . && docker run -i hidlog check < FILE
FROM scratch
COPY release/hidlog /hidlog
COPY LICENSE-APACHE LICENSE-MIT packages/NOTICE /licences/
USER 65534:65534
ENTRYPOINT ["/hidlog"]
