/* TLS by OpenSSL: what is loaded, the handshake, and what is sent and received. */
#define _GNU_SOURCE
#include "tls.h"

#include "certificate.h"

#include <errno.h>
#include <openssl/err.h>
#include <openssl/ssl.h>
#include <poll.h>
#include <stdio.h>
#include <stdlib.h>
#include <string.h>

struct tls {
    SSL_CTX *context;
    SSL *line; /* null where there is no connection */
    bool is_checked;
    char host[256];
    char why[TLS_WHY_ROOM];
};

const char *tls_version(void)
{
    return OpenSSL_version(OPENSSL_VERSION);
}

/* OpenSSL's words for what has just failed: the first of what it tells is the cause of the others. */
static const char *told_first(void)
{
    unsigned long error = ERR_peek_error();
    const char *text = ERR_SYSTEM_ERROR(error) ? strerror(ERR_GET_REASON(error)) : ERR_reason_error_string(error);
    return text != NULL ? text : "OpenSSL doesn't say why";
}

/* ---- What is loaded ---- */

/* The first check that fails is told; the handshake ends there. */
static int on_check(int is_right, X509_STORE_CTX *at)
{
    SSL *line = X509_STORE_CTX_get_ex_data(at, SSL_get_ex_data_X509_STORE_CTX_idx());
    tls *t = line != NULL ? SSL_get_app_data(line) : NULL;
    if (!is_right && t != NULL && t->why[0] == 0)
        certificate_refused(at, t->host, t->why, sizeof t->why);
    return is_right;
}

/* Those who sign hosts' certificates. A file of them may also name hosts' certificates themselves. */
static bool load_authorities(SSL_CTX *context, const char *file)
{
    if (file == NULL)
        return SSL_CTX_set_default_verify_paths(context) == 1;
    (void)X509_VERIFY_PARAM_set_flags(SSL_CTX_get0_param(context), X509_V_FLAG_PARTIAL_CHAIN);
    return SSL_CTX_load_verify_locations(context, file, NULL) == 1;
}

/* Loads all; the name of the file that can't be, else null. */
static const char *load(SSL_CTX *context, const tls_asked *asked)
{
    const char *key = asked->key != NULL ? asked->key : asked->certificate;
    if (!asked->is_unchecked) {
        SSL_CTX_set_verify(context, SSL_VERIFY_PEER, on_check);
        if (!load_authorities(context, asked->authorities))
            return asked->authorities != NULL ? asked->authorities : "the system's certificates";
    }
    if (asked->certificate == NULL)
        return NULL;
    if (SSL_CTX_use_certificate_chain_file(context, asked->certificate) != 1)
        return asked->certificate;
    return SSL_CTX_use_PrivateKey_file(context, key, SSL_FILETYPE_PEM) == 1 ? NULL : key;
}

tls *tls_new(const tls_asked *asked, char *why)
{
    tls *t = calloc(1, sizeof *t);
    ERR_clear_error();
    if (t != NULL)
        t->context = SSL_CTX_new(TLS_client_method());
    if (t == NULL || t->context == NULL) {
        (void)snprintf(why, TLS_WHY_ROOM, "TLS: memory is wanting");
        tls_free(t);
        return NULL;
    }
    t->is_checked = !asked->is_unchecked;
    /* The line's buffer moves on between two tries, and may have grown. A host that closes without TLS's farewell has
     * closed: records tell by themselves whether they are whole. */
    (void)SSL_CTX_set_mode(t->context, SSL_MODE_ENABLE_PARTIAL_WRITE | SSL_MODE_ACCEPT_MOVING_WRITE_BUFFER);
    (void)SSL_CTX_set_options(t->context, SSL_OP_NO_RENEGOTIATION | SSL_OP_IGNORE_UNEXPECTED_EOF);
    const char *wrong = load(t->context, asked);
    if (wrong == NULL)
        return t;
    bool is_no_key = ERR_GET_REASON(ERR_peek_error()) == ERR_R_UNSUPPORTED;
    (void)snprintf(why, TLS_WHY_ROOM, "%.250s: %.120s", wrong,
                   is_no_key ? "it holds no key that can be read" : told_first());
    tls_free(t);
    return NULL;
}

/* ---- A connection ---- */

/* Sets which host is asked for, and which its certificate has to be for. */
static bool set_host(tls *t, const char *host)
{
    X509_VERIFY_PARAM *checks = SSL_get0_param(t->line);
    (void)snprintf(t->host, sizeof t->host, "%s", host);
    if (X509_VERIFY_PARAM_set1_ip_asc(checks, host) == 1)
        return true;
    ERR_clear_error();
    return SSL_set_tlsext_host_name(t->line, host) == 1 && (!t->is_checked || SSL_set1_host(t->line, host) == 1);
}

bool tls_begin(tls *t, int socket, const char *host)
{
    tls_end(t);
    t->why[0] = 0;
    t->line = SSL_new(t->context);
    if (t->line == NULL || SSL_set_fd(t->line, socket) != 1 || SSL_set_app_data(t->line, t) != 1)
        return false;
    return set_host(t, host);
}

static bool is_no_tls(int reason)
{
    return reason == SSL_R_WRONG_VERSION_NUMBER || reason == SSL_R_PACKET_LENGTH_TOO_LONG
        || reason == SSL_R_HTTP_REQUEST || reason == SSL_R_UNEXPECTED_MESSAGE || reason == SSL_R_BAD_PACKET_LENGTH;
}

/* Why no TLS came about, by the error of the call that failed. */
static void tell_failure(tls *t, int error, int cause)
{
    int reason = ERR_GET_REASON(ERR_peek_error());
    if (error == SSL_ERROR_SSL && is_no_tls(reason))
        (void)snprintf(t->why, sizeof t->why, "What this port speaks isn't TLS.");
    else if (error == SSL_ERROR_SSL && reason >= SSL_AD_REASON_OFFSET)
        (void)snprintf(t->why, sizeof t->why, "The host refuses TLS: %s.", told_first());
    else if (error == SSL_ERROR_SSL)
        (void)snprintf(t->why, sizeof t->why, "No TLS with this host: %s.", told_first());
    else if (error == SSL_ERROR_SYSCALL && cause != 0)
        (void)snprintf(t->why, sizeof t->why, "The line is lost while TLS begins: %s.", strerror(cause));
    else
        (void)snprintf(t->why, sizeof t->why, "The host has closed the line while TLS began.");
}

tls_state tls_step(tls *t)
{
    ERR_clear_error();
    errno = 0;
    int result = SSL_connect(t->line), cause = errno;
    if (result == 1)
        return TLS_DONE;
    int error = SSL_get_error(t->line, result);
    if (error == SSL_ERROR_WANT_READ || error == SSL_ERROR_WANT_WRITE)
        return TLS_GOES_ON;
    if (t->why[0] != 0)
        return TLS_REFUSED;
    tell_failure(t, error, cause);
    return TLS_FAILED;
}

short tls_waits(const tls *t)
{
    return SSL_want_write(t->line) ? POLLOUT : POLLIN;
}

/* What a call that gave no byte comes to: 0 where the host has closed, else -1 by errno. */
static ssize_t outcome(tls *t, int result, int cause)
{
    int error = SSL_get_error(t->line, result);
    if (error == SSL_ERROR_ZERO_RETURN || (error == SSL_ERROR_SYSCALL && cause == 0))
        return 0;
    errno = EAGAIN;
    if (error == SSL_ERROR_WANT_READ || error == SSL_ERROR_WANT_WRITE)
        return -1;
    errno = error == SSL_ERROR_SYSCALL ? cause : EPROTO;
    if (errno == EPROTO)
        (void)snprintf(t->why, sizeof t->why, "%s", told_first());
    return -1;
}

ssize_t tls_send(tls *t, const uint8_t *bytes, size_t count)
{
    size_t sent = 0;
    ERR_clear_error();
    errno = 0;
    int result = SSL_write_ex(t->line, bytes, count, &sent), cause = errno;
    if (result == 1)
        return (ssize_t)sent;
    ssize_t told = outcome(t, result, cause);
    if (told == 0)
        errno = EPIPE;
    return -1;
}

ssize_t tls_receive(tls *t, uint8_t *bytes, size_t room)
{
    size_t came = 0;
    ERR_clear_error();
    errno = 0;
    int result = SSL_read_ex(t->line, bytes, room, &came), cause = errno;
    return result == 1 ? (ssize_t)came : outcome(t, result, cause);
}

bool tls_has_more(const tls *t)
{
    return SSL_pending(t->line) > 0;
}

const char *tls_why(const tls *t)
{
    return t->why;
}

void tls_end(tls *t)
{
    if (t->line == NULL)
        return;
    if (SSL_is_init_finished(t->line))
        (void)SSL_shutdown(t->line); /* a host that is gone won't hear it */
    SSL_free(t->line);
    t->line = NULL;
    ERR_clear_error();
}

void tls_free(tls *t)
{
    if (t == NULL)
        return;
    tls_end(t);
    SSL_CTX_free(t->context);
    free(t);
}
