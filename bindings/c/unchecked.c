/* Five results that nobody looks at. bindings/c/test counts the compiler's warnings: there has to be one for each. */
#include "vl53l0x_bus.h"

void unchecked(uint8_t *session, const struct vl53l0x_bus *bus, uint8_t *record, uint8_t *outcome, uint32_t *value);

void unchecked(uint8_t *session, const struct vl53l0x_bus *bus, uint8_t *record, uint8_t *outcome, uint32_t *value)
{
    vl53l0x_session_from_bytes(session, record, 0);
    vl53l0x_drive(session, bus, record, outcome);
    vl53l0x_go_on(session, bus, outcome);
    vl53l0x_done_value(outcome, value);
    vl53l0x_select_page_0(bus, VL53L0X_DEFAULT_ADDRESS);
}
