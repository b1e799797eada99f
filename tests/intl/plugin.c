/* A library that calls the program when it is loaded, while the loader has its lock. */
void plugin_starts(void);

__attribute__((constructor)) static void start(void)
{
    plugin_starts();
}
