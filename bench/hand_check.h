/* Gives (a) the names that the differential test calls. */
#define orderset_proved_format hand_as_format
#define orderset_proved_recover hand_as_recover
#define orderset_proved_insert hand_as_insert
#define orderset_proved_replace hand_as_replace
#define orderset_proved_remove hand_as_remove
#define orderset_proved_get hand_as_get
