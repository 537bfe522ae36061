/* A window by SDL 2, in which each frame is stretched to 4:3, as a monitor shows it.
 *
 * SPDX-License-Identifier: MIT
 */
#include <SDL.h>

#include "keys.h"
#include "window.h"
#include "zaklimot.h"

#define WINDOW_WIDTH 960
#define WINDOW_HEIGHT 720
#define MILLISECOND 1000000u /* in nanoseconds */
#define MOST_KEYS 64

static SDL_Window *window;
static SDL_Renderer *renderer;
static SDL_Texture *texture;
static struct wishes wanted;
static bool is_closed;
static uint16_t keys[MOST_KEYS];
static size_t key_count;

bool window_open(const struct wishes *wishes)
{
    wanted = *wishes;
    if (SDL_Init(SDL_INIT_VIDEO) != 0)
        return false;
    window = SDL_CreateWindow("Zaklimot", SDL_WINDOWPOS_CENTERED, SDL_WINDOWPOS_CENTERED,
                              WINDOW_WIDTH, WINDOW_HEIGHT, SDL_WINDOW_RESIZABLE);
    renderer = window ? SDL_CreateRenderer(window, -1, 0) : NULL;
    if (!renderer)
        return false;
    SDL_RenderSetLogicalSize(renderer, WINDOW_WIDTH, WINDOW_HEIGHT);
    texture = SDL_CreateTexture(renderer, SDL_PIXELFORMAT_RGB888, SDL_TEXTUREACCESS_STREAMING,
                                ZAK_WIDEST, ZAK_HIGHEST);
    SDL_StartTextInput();
    return texture != NULL;
}

void window_close(void)
{
    SDL_Quit();
}

static void add_key(uint16_t key)
{
    if (key && key_count < MOST_KEYS)
        keys[key_count++] = key;
}

/* Keys that type no text, with the scan codes of a PC. */
static void press(SDL_Keycode key)
{
    switch (key) {
    case SDLK_RETURN: add_key(key_of_character('\r')); break;
    case SDLK_ESCAPE: add_key(key_of_character('\x1B')); break;
    case SDLK_BACKSPACE: add_key(key_of_character('\b')); break;
    case SDLK_TAB: add_key(key_of_character('\t')); break;
    case SDLK_UP: add_key(0x4800); break;
    case SDLK_LEFT: add_key(0x4B00); break;
    case SDLK_RIGHT: add_key(0x4D00); break;
    case SDLK_DOWN: add_key(0x5000); break;
    default: break;
    }
}

static void take_events(void)
{
    SDL_Event event;
    while (SDL_PollEvent(&event)) {
        if (event.type == SDL_QUIT)
            is_closed = true;
        else if (event.type == SDL_KEYDOWN)
            press(event.key.keysym.sym);
        else if (event.type == SDL_TEXTINPUT && (event.text.text[0] & 0x80) == 0)
            add_key(key_of_character(event.text.text[0]));
    }
}

/* Waits until the machine's time has passed here too, so that it runs no faster than it should. */
static void wait_until(uint64_t time)
{
    static uint64_t behind; /* how much more time has passed here */
    uint64_t now = (uint64_t)SDL_GetTicks() * MILLISECOND;
    if (now < time + behind)
        SDL_Delay((Uint32)((time + behind - now) / MILLISECOND));
    else
        behind = now - time;
}

void window_show(const uint32_t *pixels, uint32_t width, uint32_t height, uint32_t pitch,
                 uint64_t time)
{
    SDL_Rect part = {0, 0, (int)width, (int)height};
    SDL_UpdateTexture(texture, &part, pixels, (int)(4 * pitch));
    SDL_RenderClear(renderer);
    SDL_RenderCopy(renderer, texture, &part, NULL);
    SDL_RenderPresent(renderer);
    take_events();
    wait_until(time);
}

bool window_is_closed(void)
{
    return is_closed;
}

uint16_t window_key(bool is_taken)
{
    if (wanted.keys && *wanted.keys) {
        uint16_t key = key_of_character(*wanted.keys);
        wanted.keys += is_taken;
        return key;
    }
    uint16_t key = key_count ? keys[0] : 0;
    if (key && is_taken)
        memmove(keys, keys + 1, --key_count * sizeof *keys);
    return key;
}
