/* Loaded before the C library: the processor has none of the features that a program may ask the C library for. */

const void *__x86_get_cpuid_feature_leaf(unsigned leaf)
{
    static const char none[64];
    (void)leaf;
    return none;
}
