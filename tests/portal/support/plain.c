/* The formulas of samples and classes in plain C. */
#include "portal.h"

uint32_t magnitude(uint32_t word)
{
    return word <= UINT32_C(0x80000000) ? word : (uint32_t)0 - word;
}

uint64_t greatest_magnitude(const uint32_t *words, size_t count)
{
    uint64_t greatest = 0;
    for (size_t i = 0; i < count; i++)
        if (magnitude(words[i]) > greatest)
            greatest = magnitude(words[i]);
    return greatest;
}

uint32_t encode(uint32_t class_number, uint64_t M)
{
    return (uint32_t)(class_number * (UINT64_C(0x100000000) / M));
}

uint32_t decode(uint32_t phase, uint64_t M)
{
    uint64_t turned = (phase + UINT64_C(0x80000000) / M) % UINT64_C(0x100000000);
    return (uint32_t)(turned / (UINT64_C(0x100000000) / M));
}

uint32_t product_at(const uint32_t *a, const uint32_t *k, size_t N, size_t i)
{
    uint32_t sum = 0;
    for (size_t j = 0; j <= i; j++)
        sum += a[j] * k[i - j];
    for (size_t j = i + 1; j < N; j++)
        sum -= a[j] * k[N + i - j];
    return sum;
}

uint32_t phase_at(const uint32_t *sample, const uint32_t *key, size_t N, size_t i)
{
    return sample[N + i] - product_at(sample, key, N, i);
}

uint32_t extracted_at(const uint32_t *sample, size_t N, size_t p, size_t j)
{
    if (j == N)
        return sample[N + p];
    return j <= p ? sample[p - j] : (uint32_t)0 - sample[N + p - j];
}
