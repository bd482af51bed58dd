/*
 * Page rank in whole numbers. In a step each page gives its rank in equal shares to the pages that it links to; its new
 * rank is 150,000 and 17/20 of the shares that it got. After 20 steps each page sends its rank to the host.
 *
 * Build: mkjob --shape 1 1 2 1 1 2 --graph rank.graph rank.c -o rank.job
 */
#include <polite.h>

struct page {
	uint32_t rank;		/* the graph gives the first three words */
	uint32_t links;
	uint32_t steps;		/* still to come */
	uint32_t got;
};

struct message {
	uint16_t key;
	uint32_t page;		/* used at the end */
	uint32_t rank;
};

POLITE_KIND(page, struct page, struct message);

uint32_t page_init(struct page *p, void *none, uint32_t zero, uint32_t vertex, uint32_t ready)
{
	return POLITE_PIN(0);
}

uint32_t page_send(struct page *p, struct message *m, uint32_t zero, uint32_t vertex, uint32_t ready)
{
	m->rank = p->rank / p->links;
	return POLITE_NOT_READY;
}

uint32_t page_recv(struct page *p, const struct message *m, uint32_t value, uint32_t vertex, uint32_t ready)
{
	p->got += m->rank;
	return ready;
}

/* At rest all shares have come. */
struct polite_step page_step(struct page *p, void *none, uint32_t zero, uint32_t vertex, uint32_t ready)
{
	p->rank = 150000 + p->got * 17 / 20;
	p->got = 0;
	p->steps--;
	if (p->steps == 0)
		return (struct polite_step){ .ready = POLITE_NOT_READY, .active = 0 };
	return (struct polite_step){ .ready = POLITE_PIN(0), .active = 1 };
}

uint32_t page_finish(struct page *p, struct message *m, uint32_t zero, uint32_t vertex, uint32_t ready)
{
	m->page = vertex;
	m->rank = p->rank;
	return POLITE_MESSAGE;
}
