/* Why a host's certificate is refused, in words. Only where OpenSSL is there. */
#ifndef CERTIFICATE_H
#define CERTIFICATE_H

#include <openssl/x509.h>
#include <stddef.h>

/* The sentence for the check that has failed, at a host that was asked for by a name or an address. */
void certificate_refused(X509_STORE_CTX *at, const char *host, char *why, size_t room);

#endif
