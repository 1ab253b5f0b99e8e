/* A program of version 0.2, with the declarations that it had: the struct that sedge_ground_read writes has grown
 * since. Its status is 0 if it starts. With -DLIBRARY it is a library of that version, with only this call. */
#include <stddef.h>
#include <stdint.h>

struct sedge_ground {
    void *node;
};

struct sedge_ground_reading {
    size_t outstanding;
    size_t frame_length;
    uint8_t state;
    uint8_t vs;
    uint8_t nn;
};

uint8_t sedge_ground_read(struct sedge_ground *ground, struct sedge_ground_reading *read);

#ifdef LIBRARY
uint8_t sedge_ground_read(struct sedge_ground *ground, struct sedge_ground_reading *read)
{
    const struct sedge_ground_reading reading = {0, 64, 6, 0, 0};
    *read = reading;
    return ground->node == NULL ? 255 : 0;
}
#else
int main(void)
{
    struct sedge_ground ground = {NULL};
    struct sedge_ground_reading reading;
    (void)sedge_ground_read(&ground, &reading);
    return 0;
}
#endif
