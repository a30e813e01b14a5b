/* The C side: a byte sum as one would write it, and what the loop and the call themselves cost.
 * No header: the kit's clang, which compiles this, has none. */
unsigned long c_sum(const unsigned char *block, unsigned long length)
{
    unsigned char sum = 0;
    for (unsigned long i = 0; i < length; i++)
        sum = (unsigned char)(sum + block[i]);
    return sum == 0;
}

unsigned long c_nothing(const unsigned char *block, unsigned long length)
{
    (void)block;
    (void)length;
    return 0;
}
