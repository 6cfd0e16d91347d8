/* CRC-32 of "123456789", by table and bit by bit; the answer is the published check value 0xcbf43926. */
static const char text[] = "123456789";
static unsigned table[256];

static unsigned shifted(unsigned crc)
{
    for (int bit = 0; bit < 8; bit++)
        crc = crc & 1 ? crc >> 1 ^ 0xEDB88320u : crc >> 1;
    return crc;
}

int main(void)
{
    unsigned quick = ~0u, slow = ~0u;
    for (unsigned i = 0; i < 256; i++)
        table[i] = shifted(i);
    for (const char *c = text; *c; c++) {
        quick = table[(quick ^ (unsigned char)*c) & 255] ^ quick >> 8;
        slow = shifted(slow ^ (unsigned char)*c);
    }
    return quick == slow ? (int)~quick : 0;
}
