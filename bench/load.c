/* A load of one kind of request over TCP, and an echo with a thread a connection to compare a server with.
 *
 * usage: load echo PORT REPLY_BYTES                       answers each frame with a frame of so many bytes
 *        load store PORT REPLY_BYTES FILE BYTES           the same, once an entry of BYTES and then a byte of it are written to FILE, each with a sync;
 *                                                         one thread at a time has the turn to write
 *        load ask PORT CLIENTS SECONDS READS WRITES KEYS  logs CLIENTS in; of each READS + WRITES clients READS read and WRITES write,
 *                                                         at random keys below KEYS; prints the reads and the writes a second
 *        load late PORT CLIENTS SECONDS PAUSE KEYS        logs CLIENTS in, which read, each so many microseconds after its last reply;
 *                                                         prints the reads a second, and how many microseconds half of them took at most, and 99 of 100
 *        load logins PORT COUNT BYTES                     logs in wrongly, in random order, as a known user and as an unknown one, COUNT times each
 *                                                         on average, with passwords of BYTES bytes;
 *                                                         prints the microseconds of both: their mean, the variance of that, and the median
 * A frame is four bytes of length, and as many bytes. */
#include <arpa/inet.h>
#include <fcntl.h>
#include <netinet/tcp.h>
#include <pthread.h>
#include <stdint.h>
#include <stdio.h>
#include <stdlib.h>
#include <string.h>
#include <sys/socket.h>
#include <time.h>
#include <unistd.h>

enum { MOST = 1 << 16 };

static int port_number, reply_bytes, keys;
static volatile int stopped;
static int keeps_times;
static useconds_t pause_between;
/* The file of a store, none where it is below 0, and who may write to it. */
static int store = -1, turn_taken;
static off_t store_length;
static size_t entry_bytes;
static pthread_mutex_t turn_lock = PTHREAD_MUTEX_INITIALIZER;
static pthread_cond_t turn_back = PTHREAD_COND_INITIALIZER;

static void fail(const char *what)
{
	perror(what);
	exit(1);
}

static int take(int at, unsigned char *bytes, size_t count)
{
	while (count > 0) {
		ssize_t got = recv(at, bytes, count, 0);
		if (got <= 0)
			return 0;
		bytes += got;
		count -= (size_t)got;
	}
	return 1;
}

static int give(int at, const unsigned char *bytes, size_t count)
{
	while (count > 0) {
		ssize_t sent = send(at, bytes, count, MSG_NOSIGNAL);
		if (sent <= 0)
			return 0;
		bytes += sent;
		count -= (size_t)sent;
	}
	return 1;
}

static size_t length_of(const unsigned char *head)
{
	return (size_t)head[0] << 24 | (size_t)head[1] << 16 | (size_t)head[2] << 8 | head[3];
}

static void put_length(unsigned char *head, size_t length)
{
	for (int i = 0; i < 4; i++)
		head[i] = (unsigned char)(length >> (24 - 8 * i));
}

/* Takes a frame; the first byte of its body, or -1 at the end. */
static int take_frame(int at, unsigned char *body)
{
	unsigned char head[4];
	if (!take(at, head, 4) || length_of(head) > MOST || !take(at, body, length_of(head)))
		return -1;
	return body[0];
}

static double now(void)
{
	struct timespec moment;
	clock_gettime(CLOCK_MONOTONIC, &moment);
	return (double)moment.tv_sec + (double)moment.tv_nsec / 1e9;
}

/* Writes an entry and its gate behind what the file has, once no other thread does. */
static int append(void)
{
	static const unsigned char entry[MOST];
	off_t at = 0;
	pthread_mutex_lock(&turn_lock);
	while (turn_taken)
		pthread_cond_wait(&turn_back, &turn_lock);
	turn_taken = 1;
	at = store_length;
	pthread_mutex_unlock(&turn_lock);
	int done = pwrite(store, entry, entry_bytes, at) == (ssize_t)entry_bytes && !fdatasync(store) && pwrite(store, "g", 1, at) == 1 && !fdatasync(store);
	pthread_mutex_lock(&turn_lock);
	store_length = at + (off_t)entry_bytes;
	turn_taken = 0;
	pthread_mutex_unlock(&turn_lock);
	pthread_cond_signal(&turn_back);
	return done;
}

static void *echo(void *given)
{
	int at = (int)(intptr_t)given;
	unsigned char body[MOST], reply[MOST] = {0};
	put_length(reply, (size_t)reply_bytes - 4);
	reply[4] = 0x81;
	while (take_frame(at, body) >= 0 && (store < 0 || append()) && give(at, reply, (size_t)reply_bytes))
		;
	close(at);
	return NULL;
}

static void serve_echo(void)
{
	int listener = socket(AF_INET, SOCK_STREAM, 0), on = 1;
	struct sockaddr_in address = {.sin_family = AF_INET, .sin_port = htons((uint16_t)port_number), .sin_addr.s_addr = htonl(INADDR_LOOPBACK)};
	setsockopt(listener, SOL_SOCKET, SO_REUSEADDR, &on, sizeof on);
	if (bind(listener, (struct sockaddr *)&address, sizeof address) || listen(listener, 128))
		fail("listen");
	for (;;) {
		pthread_t thread;
		int at = accept(listener, NULL, NULL);
		if (at < 0)
			fail("accept");
		setsockopt(at, IPPROTO_TCP, TCP_NODELAY, &on, sizeof on);
		if (pthread_create(&thread, NULL, echo, (void *)(intptr_t)at))
			fail("thread");
		pthread_detach(thread);
	}
}

/* Times in nanoseconds. */
struct times {
	uint32_t *all;
	size_t count, room;
};

struct client {
	int at, writes;
	unsigned seed;
	uint64_t done;
	struct times times;
};

static void keep(struct times *times, double seconds)
{
	if (times->count == times->room) {
		times->room = times->room ? 2 * times->room : 4096;
		times->all = realloc(times->all, times->room * sizeof *times->all);
		if (!times->all)
			fail("memory");
	}
	times->all[times->count++] = seconds < 4 ? (uint32_t)(seconds * 1e9) : UINT32_MAX;
}

static int compare(const void *left, const void *right)
{
	uint32_t a = *(const uint32_t *)left, b = *(const uint32_t *)right;
	return a < b ? -1 : a > b;
}

/* The microseconds that this part of the times don't pass, which are in order. */
static double part(const struct times *times, double share)
{
	return times->count ? times->all[(size_t)(share * (double)(times->count - 1))] / 1e3 : 0;
}

static size_t statement(struct client *client, unsigned char *frame)
{
	int key = (int)(rand_r(&client->seed) % (unsigned)keys);
	int length = sprintf((char *)frame + 5, client->writes ? "UPDATE t SET v = v + 1 WHERE k = %d" : "SELECT v FROM t WHERE k = %d", key);
	put_length(frame, (size_t)length + 1);
	frame[4] = 2;
	return (size_t)length + 5;
}

static void *ask(void *given)
{
	struct client *client = given;
	unsigned char frame[256], body[MOST];
	while (!stopped) {
		size_t count = statement(client, frame);
		double begun = now();
		int kind = give(client->at, frame, count) ? take_frame(client->at, body) : -1;
		if (kind != 0x81 && kind != 0x82) {
			fprintf(stderr, "load: a reply of kind %d\n", kind);
			exit(1);
		}
		client->done++;
		if (keeps_times)
			keep(&client->times, now() - begun);
		if (pause_between)
			usleep(pause_between);
	}
	return NULL;
}

static int connected(void)
{
	int at = socket(AF_INET, SOCK_STREAM, 0), on = 1;
	struct sockaddr_in address = {.sin_family = AF_INET, .sin_port = htons((uint16_t)port_number), .sin_addr.s_addr = htonl(INADDR_LOOPBACK)};
	if (connect(at, (struct sockaddr *)&address, sizeof address))
		fail("connect");
	setsockopt(at, IPPROTO_TCP, TCP_NODELAY, &on, sizeof on);
	return at;
}

static int logged_in(void)
{
	static const unsigned char login[] = "\0\0\0\x0e\x01\0\3ann\0\6secret";
	unsigned char body[MOST];
	int at = connected();
	if (!give(at, login, sizeof login - 1) || take_frame(at, body) != 0x81)
		fail("login");
	return at;
}

/* Tells how often they read, and how long that took. */
static void tell_times(struct client *clients, int count, double spent)
{
	struct times times = {0};
	for (int i = 0; i < count; i++)
		for (size_t j = 0; j < clients[i].times.count; j++)
			keep(&times, clients[i].times.all[j] / 1e9);
	qsort(times.all, times.count, sizeof *times.all, compare);
	printf("%.0f %.1f %.1f\n", (double)times.count / spent, part(&times, 0.5), part(&times, 0.99));
}

static void load(int clients, double seconds, int reads, int writes)
{
	struct client *all = calloc((size_t)clients, sizeof *all);
	pthread_t *threads = calloc((size_t)clients, sizeof *threads);
	uint64_t sums[2] = {0, 0};
	for (int i = 0; i < clients; i++)
		all[i] = (struct client){.at = logged_in(), .writes = i % (reads + writes) >= reads, .seed = (unsigned)i + 1};
	double start = now();
	for (int i = 0; i < clients; i++)
		if (pthread_create(&threads[i], NULL, ask, &all[i]))
			fail("thread");
	usleep((useconds_t)(seconds * 1e6));
	stopped = 1;
	for (int i = 0; i < clients; i++)
		pthread_join(threads[i], NULL);
	double spent = now() - start;
	for (int i = 0; i < clients; i++)
		sums[all[i].writes] += all[i].done;
	if (keeps_times)
		tell_times(all, clients, spent);
	else
		printf("%.0f %.0f\n", (double)sums[0] / spent, (double)sums[1] / spent);
}

/* Writes the frame of a wrong login, and returns its length. */
static size_t wrong_login(unsigned char *frame, const char *user, size_t bytes)
{
	size_t length = 1 + 2 + 3 + 2 + bytes;
	put_length(frame, length);
	memcpy(frame + 4, "\1\0\3", 3);
	memcpy(frame + 7, user, 3);
	frame[10] = (unsigned char)(bytes >> 8);
	frame[11] = (unsigned char)bytes;
	memset(frame + 12, 'x', bytes);
	return 4 + length;
}

static void tell_logins(struct times *times)
{
	double sum = 0, squares = 0, count = (double)times->count;
	for (size_t i = 0; i < times->count; i++)
		sum += times->all[i] / 1e3;
	for (size_t i = 0; i < times->count; i++) {
		double away = times->all[i] / 1e3 - sum / count;
		squares += away * away;
	}
	qsort(times->all, times->count, sizeof *times->all, compare);
	printf("%.4f %.4f %.4f\n", sum / count, squares / (count - 1) / count, part(times, 0.5));
}

static void log_in_wrongly(int count, size_t bytes)
{
	static const unsigned char refused[19] = {0x8f, 0, 3};
	static unsigned char frames[2][MOST + 16];
	struct times times[2] = {{0}, {0}};
	size_t lengths[2] = {wrong_login(frames[0], "ann", bytes), wrong_login(frames[1], "anm", bytes)};
	unsigned char body[MOST];
	unsigned seed = 1;
	int at = connected();
	for (int i = 0; i < 2 * count; i++) {
		int unknown = rand_r(&seed) >> 8 & 1;
		double begun = now();
		if (!give(at, frames[unknown], lengths[unknown]) || take_frame(at, body) != 0x8f)
			fail("a wrong login");
		keep(&times[unknown], now() - begun);
		if (memcmp(body, refused, sizeof refused)) {
			fprintf(stderr, "load: a wrong login has another reply\n");
			exit(1);
		}
	}
	tell_logins(&times[0]);
	tell_logins(&times[1]);
}

int main(int count, char **words)
{
	if (count < 3)
		return 2;
	port_number = atoi(words[2]);
	if (count == 4 && !strcmp(words[1], "echo")) {
		reply_bytes = atoi(words[3]);
		serve_echo();
	} else if (count == 6 && !strcmp(words[1], "store")) {
		reply_bytes = atoi(words[3]);
		entry_bytes = (size_t)atoi(words[5]);
		store = open(words[4], O_WRONLY | O_CREAT | O_TRUNC, 0600);
		if (store < 0 || entry_bytes > MOST)
			fail(words[4]);
		serve_echo();
	} else if (count == 8 && !strcmp(words[1], "ask")) {
		keys = atoi(words[7]);
		load(atoi(words[3]), atof(words[4]), atoi(words[5]), atoi(words[6]));
	} else if (count == 7 && !strcmp(words[1], "late")) {
		keeps_times = 1;
		pause_between = (useconds_t)atoi(words[5]);
		keys = atoi(words[6]);
		load(atoi(words[3]), atof(words[4]), 1, 0);
	} else if (count == 5 && !strcmp(words[1], "logins")) {
		log_in_wrongly(atoi(words[3]), (size_t)atoi(words[4]));
	} else {
		return 2;
	}
	return 0;
}
