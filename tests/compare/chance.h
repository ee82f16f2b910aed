/* Chance: the same draws on every machine. */

struct chance {
	uint64_t at;
};

/* splitmix64 */
static uint64_t mix(uint64_t x)
{
	x = (x ^ x >> 30) * UINT64_C(0xbf58476d1ce4e5b9);
	x = (x ^ x >> 27) * UINT64_C(0x94d049bb133111eb);
	return x ^ x >> 31;
}

static uint32_t draw(struct chance *c)
{
	c->at += UINT64_C(0x9e3779b97f4a7c15);
	return (uint32_t)(mix(c->at) >> 32);
}

/* 0 to n - 1 */
static uint32_t below(struct chance *c, uint32_t n)
{
	return (uint32_t)((uint64_t)draw(c) * n >> 32);
}

static uint32_t between(struct chance *c, uint32_t low, uint32_t high)
{
	return low + below(c, high - low + 1);
}

static bool one_in(struct chance *c, uint32_t n)
{
	return below(c, n) == 0;
}

static struct chance chance_of_file(uint64_t seed, uint64_t k)
{
	return (struct chance){mix(mix(seed + 1) + k * UINT64_C(0xd1342543de82ef95))};
}
