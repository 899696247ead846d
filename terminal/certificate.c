/* Why a certificate is refused: the failed check, and what of the certificate it is about. */
#include "certificate.h"

#include <openssl/x509v3.h>
#include <stdio.h>
#include <string.h>

enum { SHOWN = 100 }; /* of the texts in a certificate, which may be of any length */

/* Takes what was written, as one line of ASCII; two full stops say that it is cut. */
static void take_text(BIO *from, char *text)
{
    int length = BIO_read(from, text, SHOWN);
    if (length < 0)
        length = 0;
    text[length] = 0;
    for (int at = 0; at < length; at++)
        if (text[at] < ' ' || text[at] > '~')
            text[at] = '?';
    if (length == SHOWN)
        text[SHOWN - 1] = text[SHOWN - 2] = '.';
}

static void name_text(const X509_NAME *name, char *text)
{
    BIO *out = BIO_new(BIO_s_mem());
    text[0] = 0;
    if (out == NULL)
        return;
    if (X509_NAME_print_ex(out, name, 0, XN_FLAG_RFC2253) >= 0)
        take_text(out, text);
    (void)BIO_free(out);
}

/* The names and addresses that a certificate is for. */
static void names_text(const X509 *of, char *text)
{
    int at = X509_get_ext_by_NID(of, NID_subject_alt_name, -1);
    BIO *out = at >= 0 ? BIO_new(BIO_s_mem()) : NULL;
    if (out == NULL) {
        name_text(X509_get_subject_name(of), text);
        return;
    }
    if (X509V3_EXT_print(out, X509_get_ext(of, at), 0, 0) == 1)
        take_text(out, text);
    else
        (void)snprintf(text, SHOWN, "another host");
    (void)BIO_free(out);
}

static void time_text(const ASN1_TIME *time, char *text)
{
    BIO *out = BIO_new(BIO_s_mem());
    text[0] = 0;
    if (out == NULL)
        return;
    if (ASN1_TIME_print(out, time) == 1)
        take_text(out, text);
    (void)BIO_free(out);
}

void certificate_refused(X509_STORE_CTX *at, const char *host, char *why, size_t room)
{
    char text[SHOWN + 1];
    const X509 *of = X509_STORE_CTX_get_current_cert(at);
    const char *whose = X509_STORE_CTX_get_error_depth(at) == 0 ? "The host's certificate"
                                                                : "A certificate above the host's";
    int error = X509_STORE_CTX_get_error(at);
    switch (of == NULL ? X509_V_OK : error) {
    case X509_V_ERR_CERT_HAS_EXPIRED:
        time_text(X509_get0_notAfter(of), text);
        (void)snprintf(why, room, "%s has expired: it was valid up to %s.", whose, text);
        break;
    case X509_V_ERR_CERT_NOT_YET_VALID:
        time_text(X509_get0_notBefore(of), text);
        (void)snprintf(why, room, "%s isn't valid yet: it will be from %s on.", whose, text);
        break;
    case X509_V_ERR_HOSTNAME_MISMATCH:
    case X509_V_ERR_IP_ADDRESS_MISMATCH:
        names_text(of, text);
        (void)snprintf(why, room, "The host's certificate is for another name: for %s, and not for %.100s.", text,
                       host);
        break;
    case X509_V_ERR_DEPTH_ZERO_SELF_SIGNED_CERT:
        (void)snprintf(why, room, "The host's certificate is signed by itself, and isn't known here: --ca names a file "
                                  "of those that are.");
        break;
    case X509_V_ERR_SELF_SIGNED_CERT_IN_CHAIN:
    case X509_V_ERR_UNABLE_TO_GET_ISSUER_CERT:
    case X509_V_ERR_UNABLE_TO_GET_ISSUER_CERT_LOCALLY:
    case X509_V_ERR_UNABLE_TO_VERIFY_LEAF_SIGNATURE:
        name_text(X509_get_issuer_name(of), text);
        (void)snprintf(why, room, "The issuer of the host's certificate, %s, isn't known here: --ca names a file of "
                                  "those that are.", text);
        break;
    default: (void)snprintf(why, room, "%s is refused: %s.", whose, X509_verify_cert_error_string(error)); break;
    }
}
