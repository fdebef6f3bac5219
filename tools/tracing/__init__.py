"""How showtrace, trace and bustime read a trace and show it.

start      starts a command: showtrace, trace or bustime, each in a file of its own
__main__   how a command is begun, and how it ends
streams    what the commands read and write, and what they say where that fails
feeding    the way of records through rolltrace, for trace
registers  the registers of the sensor
answers    the numbers of the answers, and the places of panics
pages      the page that each sensor may be on
shapes     what the transfers of a call are made of
calls      the table of all calls
lines      the lines of a trace, and what each of them tells
matching   which calls the lines fit
texts      the words for transfers, refusals and results
telling    the names and the rows that a call is shown with
view       the whole trace, call by call
"""
