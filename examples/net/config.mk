# OpenSSL, by which there are TLS and SCRAM: where Debian's libssl-dev is, and nowhere with OPENSSL=no.
OPENSSL ?= $(shell pkg-config --exists libssl && echo yes || echo no)
SECURE := $(if $(filter yes,$(OPENSSL)),tls.c scram.c,without.c)
SECURE_LIBRARIES := $(if $(filter yes,$(OPENSSL)),$(shell pkg-config --libs libssl libcrypto))
