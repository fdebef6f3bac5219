"""The table of all calls of the driver, with the transfers of each."""

import struct

from .answers import INVALID_ADDRESS, INVALID_ARGUMENT, INVALID_DEVICE, OK_FALSE, WOULD_BLOCK
from .shapes import Maybe, Section, Shape, Step, read, write, writes

DETECTOR_WAIT = Step(0x83, limit=65535, until="until it is not 0")
STATUS_WAIT = Step("RESULT_INTERRUPT_STATUS", limit=10000, until="until one of bits 0 to 2 is set")
START_WAIT = Step("SYSRANGE_START", limit=10000, until="until bit 0 is clear")

CLEAR_INTERRUPT = [write("SYSTEM_INTERRUPT_CLEAR", "01"), write("SYSTEM_INTERRUPT_CLEAR", "00")]
READ_RANGE = [read("RESULT_RANGE_STATUS_plus_10", 2, goes_on=True), *CLEAR_INTERRUPT]
RESTORE_STOP_VARIABLE = writes("80=01 FF=01 00=00 91=.. 00=01 FF=00 80=00")


def gpio_config(functionality):
    return [
        write("SYSTEM_INTERRUPT_CONFIG_GPIO", functionality),
        read("GPIO_HV_MUX_ACTIVE_HIGH"),
        write("GPIO_HV_MUX_ACTIVE_HIGH", ".."),
        *CLEAR_INTERRUPT,
    ]


def budget_reads(places=(), ends=()):
    """The reads that both budget functions begin with; `places` and `ends` are those of the arithmetic after them."""
    return [
        read("SYSTEM_SEQUENCE_CONFIG"),
        read("PRE_RANGE_CONFIG_TIMEOUT_MACROP_HI", 2, places=(2,)),
        read("FINAL_RANGE_CONFIG_TIMEOUT_MACROP_HI", 2, places=(2, 3)),
        read("PRE_RANGE_CONFIG_VCSEL_PERIOD", places=(4,)),
        read("MSRC_CONFIG_TIMEOUT_MACROP", places=(5,)),
        read("FINAL_RANGE_CONFIG_VCSEL_PERIOD", places=(4, 6, *places), ends=ends),
    ]


SET_BUDGET_PLACES = (7, 8, 9)
WRITE_BUDGET = write("FINAL_RANGE_CONFIG_TIMEOUT_MACROP_HI", "....")


def calibration(sequence, start):
    """What is calibrated is told by both bytes."""
    return [
        write("SYSTEM_SEQUENCE_CONFIG", sequence),
        write("SYSRANGE_START", start),
        STATUS_WAIT,
        *CLEAR_INTERRUPT,
        write("SYSRANGE_START", "00"),
    ]


SPAD_INFO = [
    *writes("80=01 FF=01 00=00 FF=06"),
    read(0x83),
    *writes("83=.. FF=07 81=01 80=01 94=6B 83=00"),
    DETECTOR_WAIT,
    *writes("83=01"),
    read(0x92),
    *writes("81=00 FF=06"),
    read(0x83),
    *writes("83=.. FF=01 00=01 FF=00 80=00"),
]

REFERENCE_SPADS = [
    *writes("FF=01"),
    write("DYNAMIC_SPAD_REF_EN_START_OFFSET", "00"),
    write("DYNAMIC_SPAD_NUM_REQUESTED_REF_SPAD", "2C"),
    *writes("FF=00"),
    write("GLOBAL_CONFIG_REF_EN_START_SELECT", "B4"),
    write("GLOBAL_CONFIG_SPAD_ENABLES_REF_0", "............", 6),
]

TUNING = writes(
    "FF=01 00=00 FF=00 09=00 10=00 11=00 24=01 25=FF 75=00 FF=01 4E=2C 48=00 30=20 FF=00 30=09 54=00 31=04 32=03 40=83 "
    "46=25 60=00 27=00 50=06 51=00 52=96 56=08 57=30 61=00 62=00 64=00 65=00 66=A0 FF=01 22=32 47=14 49=FF 4A=00 FF=00 "
    "7A=0A 7B=00 78=21 FF=01 23=34 42=00 44=FF 45=26 46=05 40=40 0E=06 20=1A 43=40 FF=00 34=03 35=44 FF=01 31=04 4B=09 "
    "4C=05 4D=04 FF=00 44=00 45=20 47=08 48=28 67=00 70=04 71=01 72=FE 76=00 77=00 FF=01 0D=01 FF=00 80=01 01=F8 FF=01 "
    "8E=01 00=01 FF=00 80=00"
)

# The titles are made of lib.rs's comments, with the function in brackets.
BRING_UP = [
    Section("identity (who_am_i)", [read("WHO_AM_I", ends=(INVALID_DEVICE,))]),
    Section(
        "2V8 mode",
        [read("VHV_CONFIG_PAD_SCL_SDA__EXTSUP_HV"), write("VHV_CONFIG_PAD_SCL_SDA__EXTSUP_HV", "..")],
    ),
    Section(
        "I2C standard mode, stop variable",
        [*writes("88=00 80=01 FF=01 00=00"), read(0x91), *writes("00=01 FF=00 80=00")],
    ),
    Section("disable limit checks", [read("MSRC_CONFIG_CONTROL"), write("MSRC_CONFIG_CONTROL", "..")]),
    Section(
        "signal rate limit (set_signal_rate_limit)", [write("FINAL_RANGE_CONFIG_MIN_COUNT_RATE_RTN_LIMIT", "0020")]
    ),
    Section("sequence config", [write("SYSTEM_SEQUENCE_CONFIG", "FF")]),
    Section("SPAD info (get_spad_info)", SPAD_INFO),
    Section("SPAD map", [read("GLOBAL_CONFIG_SPAD_ENABLES_REF_0", 6)]),
    Section("reference SPADs (VL53L0X_set_reference_spads)", REFERENCE_SPADS),
    Section("tuning settings (VL53L0X_load_tuning_settings)", TUNING),
    Section("GPIO interrupt config (set_gpio_config)", gpio_config("04")),
    Section("timing budget (get_measurement_timing_budget)", budget_reads()),
    Section("disable MSRC and TCC (VL53L0X_SetSequenceStepEnable)", [write("SYSTEM_SEQUENCE_CONFIG", "E8")]),
    # Nothing is set if the budget is below 20,000 microseconds, or if it leaves no time for the final range.
    Maybe(
        [
            Section(
                "recalculate timing budget (set_measurement_timing_budget)",
                [*budget_reads(SET_BUDGET_PLACES), Maybe([WRITE_BUDGET])],
            )
        ]
    ),
    Section("VHV calibration (VL53L0X_perform_vhv_calibration)", calibration("01", "41")),
    Section("phase calibration (VL53L0X_perform_phase_calibration)", calibration("02", "01")),
    Section("restore the previous sequence config", [write("SYSTEM_SEQUENCE_CONFIG", "E8")]),
]

def thresholds(value):
    return f"{value >> 16}..{value & 0xFFFF} mm"


def rate_limit(bits):
    """The float with these bits: a word / 128, which has at most ten digits."""
    (limit,) = struct.unpack(">f", struct.pack(">I", bits & 0xFFFF_FFFF))
    # From 0x80000000 on the sign is set, or there are more than 32 bits.
    if bits < 0x8000_0000 and limit < 512 and (limit * 128).is_integer():
        return f"{limit:.10g} MCPS"
    return f"{bits}, which no word reads as"


# All calls, in the order of their numbers. One that can go two ways has two rows.
SHAPES = [
    Shape("with_address", BRING_UP),
    Shape("who_am_i", [read("WHO_AM_I")], value="0x{:02X}".format),
    Shape("set_address", [write("I2C_SLAVE_DEVICE_ADDRESS", "..", 0)], at_once=INVALID_ADDRESS),
    Shape(
        "start_continuous",
        [
            *RESTORE_STOP_VARIABLE,
            read("OSC_CALIBRATE_VAL", 2, places=(1,)),
            write("SYSTEM_INTERMEASUREMENT_PERIOD", "........"),
            write("SYSRANGE_START", "04"),
        ],
    ),
    Shape("start_continuous", [*RESTORE_STOP_VARIABLE, write("SYSRANGE_START", "02")]),
    Shape("stop_continuous", [write("SYSRANGE_START", "01"), *writes("FF=01 00=00 91=00 00=01 FF=00")]),
    Shape(
        "read_range_mm",
        [read("RESULT_INTERRUPT_STATUS", ends=(WOULD_BLOCK,)), *READ_RANGE],
        value="{} mm".format,
    ),
    Shape("read_range_continuous_millimeters_blocking", [STATUS_WAIT, *READ_RANGE], value="{} mm".format),
    Shape(
        "read_range_single_millimeters_blocking",
        [*RESTORE_STOP_VARIABLE, write("SYSRANGE_START", "01"), START_WAIT, STATUS_WAIT, *READ_RANGE],
        value="{} mm".format,
    ),
    Shape(
        "set_measurement_timing_budget",
        [*budget_reads(SET_BUDGET_PLACES, ends=(OK_FALSE,)), WRITE_BUDGET],
        at_once=OK_FALSE,
    ),
    Shape(
        "set_interrupt_thresholds_mm",
        [write("SYSTEM_THRESH_LOW", "...."), write("SYSTEM_THRESH_HIGH", "....")],
        at_once=INVALID_ARGUMENT,
    ),
    Shape(
        "get_interrupt_thresholds_mm",
        [read("SYSTEM_THRESH_LOW", 2), read("SYSTEM_THRESH_HIGH", 2)],
        value=thresholds,
    ),
    Shape("set_gpio_config", gpio_config("..")),
    Shape("clear_interrupt_status", CLEAR_INTERRUPT),
    Shape(
        "set_signal_rate_limit",
        [write("FINAL_RANGE_CONFIG_MIN_COUNT_RATE_RTN_LIMIT", "....")],
        at_once=OK_FALSE,
    ),
    Shape("get_measurement_timing_budget", budget_reads(), value="{} microseconds".format),
    Shape(
        "get_signal_rate_limit",
        [read("FINAL_RANGE_CONFIG_MIN_COUNT_RATE_RTN_LIMIT", 2)],
        value=rate_limit,
    ),
]

MOST_TRANSFERS = max(sum(spot.step.limit or 1 for spot in shape.spots) for shape in SHAPES)
