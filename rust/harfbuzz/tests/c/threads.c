/* Threads that share a face: each makes fonts of its own on it, of another size and other variations, and asks it for tables, names and
 * characters, while the others do. All begin at once on a face that nobody has asked yet, and the answers are those of a face that one
 * thread had for itself. The argument is the folder of this project's fonts. */
#include "checks.h"
#include <pthread.h>

enum { THREADS = 12, TIMES = 40, SIZES = 6, SIZE = 1000 };

typedef struct {
    const char *text;
    hb_face_t *face;
    hb_font_t *shared;
    char expected[SIZES][SIZE];
    unsigned characters;
    pthread_barrier_t start;
} work_t;

typedef struct {
    work_t *work;
    int number, wrong;
    hb_user_data_key_t key;
} worker_t;

static int given_back;

static void shaped(hb_font_t *font, const char *text, char *out) {
    hb_buffer_t *buffer = hb_buffer_create();
    hb_buffer_add_utf8(buffer, text, -1, 0, -1);
    hb_buffer_guess_segment_properties(buffer);
    hb_shape(font, buffer, NULL, 0);
    hb_buffer_serialize(buffer, 0, -1, out, SIZE, NULL, font, HB_BUFFER_SERIALIZE_FORMAT_TEXT, 0);
    hb_buffer_destroy(buffer);
}

static hb_font_t *font_of(hb_face_t *face, int size) {
    hb_font_t *font = hb_font_create(face);
    hb_variation_t weight = {HB_TAG('w', 'g', 'h', 't'), 100.0f + 150 * (float) size};
    hb_font_set_scale(font, 500 * (size + 1), 500 * (size + 1));
    hb_font_set_variations(font, &weight, 1);
    return font;
}

static unsigned characters_of(hb_face_t *face) {
    hb_set_t *set = hb_set_create();
    hb_face_collect_unicodes(face, set);
    unsigned count = hb_set_get_population(set);
    hb_set_destroy(set);
    return count;
}

static int has_tables(hb_face_t *face) {
    hb_blob_t *blob = hb_face_reference_table(face, HB_TAG('h', 'e', 'a', 'd'));
    unsigned length = hb_blob_get_length(blob);
    hb_blob_destroy(blob);
    return length == 54;
}

static void count(void *number) { __atomic_add_fetch((int *) number, 1, __ATOMIC_RELAXED); }

static void *asks(void *of) {
    worker_t *worker = of;
    work_t *work = worker->work;
    char text[SIZE];
    pthread_barrier_wait(&work->start);
    hb_face_set_user_data(work->face, &worker->key, &given_back, count, 1);
    for (int time = 0; time < TIMES; time++) {
        int size = (worker->number + time) % SIZES;
        hb_font_t *font = font_of(hb_face_reference(work->face), size);
        hb_face_destroy(work->face);
        shaped(font, work->text, text);
        worker->wrong += strcmp(text, work->expected[size]) != 0;
        shaped(work->shared, work->text, text);
        worker->wrong += strcmp(text, work->expected[0]) != 0;
        worker->wrong += characters_of(work->face) != work->characters || !has_tables(work->face);
        worker->wrong += hb_face_get_user_data(work->face, &worker->key) != &given_back;
        hb_font_destroy(font);
    }
    return NULL;
}

static void answers_of_one_thread(work_t *work, hb_face_t *face) {
    for (int size = 0; size < SIZES; size++) {
        hb_font_t *font = font_of(face, size);
        shaped(font, work->text, work->expected[size]);
        hb_font_destroy(font);
    }
    work->characters = characters_of(face);
    hb_face_destroy(face);
}

static void test_face(const char *folder, const char *file, const char *text) {
    static worker_t workers[THREADS];
    int failed_before = failed;
    pthread_t threads[THREADS];
    work_t work = {.text = text, .face = face_of(folder, file)};
    answers_of_one_thread(&work, face_of(folder, file));
    check(strcmp(work.expected[0], work.expected[1]) != 0 && work.expected[0][0] == '[', "sizes are told apart");
    work.shared = font_of(work.face, 0);
    pthread_barrier_init(&work.start, NULL, THREADS);
    given_back = 0;
    for (int number = 0; number < THREADS; number++) {
        workers[number] = (worker_t) {.work = &work, .number = number};
        pthread_create(&threads[number], NULL, asks, &workers[number]);
    }
    int wrong = 0;
    for (int number = 0; number < THREADS; number++) {
        pthread_join(threads[number], NULL);
        wrong += workers[number].wrong;
    }
    check(!wrong, "threads that share a face");
    hb_font_destroy(work.shared);
    check(!given_back, "data stays while the face does");
    hb_face_destroy(work.face);
    check(given_back == THREADS, "data of all threads is given back");
    pthread_barrier_destroy(&work.start);
    if (failed > failed_before) printf("  with %s\n", file);
}

int main(int count, char **words) {
    if (count != 2) return 2;
    test_face(words[1], "letters.ttf", "office fi AV");
    test_face(words[1], "arabic.ttf", "بِسم");
    test_face(words[1], "devanagari.ttf", "क्षत्रिय र्क कि");
    test_face(words[1], "variable.ttf", "AVfi abc");
    return counted();
}
