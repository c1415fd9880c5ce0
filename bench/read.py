#!/usr/bin/env python3
"""Times `vaosdi read` on C files as `print` writes them, of up to 64 MB, beside `gcc -fsyntax-only` on the same file.

    bench/read.py [--runs 3]

To read a file is to take no more time than the compiler needs to check it, where one is there (it finds the small header of
bench/c); at twice the text a factor of at most 2.2; and at most 40 times the memory of the text. A file that declares one number as a
constant and then again and again is to be refused, with the same factor and memory. A file of blocks that never
end is to take at most 150 bytes a token, and so are one of over a million loops in one another, each left and closed as it ought to be,
and one of an `if` that sets over a million locals in each arm, which are to be read. Nothing is kept: the files are made in a fresh
folder. It ends with status 1 where a bound is passed.
"""
import os
import shutil
import tempfile

from measure import GROWTH, PROGRAM, growth, measured, run_bench

HEADERS = os.path.join(os.path.dirname(os.path.abspath(__file__)), 'c')
MOST = 40
BYTES = 150

HEAD = """#include "osdi_0_3.h"
#include <math.h>
#include <stddef.h>
#include <stdint.h>
#include <stdlib.h>
static void init_error ( OsdiInitInfo * res , uint32_t id ) {
OsdiInitError * more = realloc ( res -> errors , ( res -> num_errors + 1u ) * sizeof ( OsdiInitError ) ) ;
if ( more ) {
more [ res -> num_errors ] = ( OsdiInitError ) {
.code = INIT_ERR_OUT_OF_BOUNDS , .payload.parameter_id = id }
;
res -> errors = more ;
res -> num_errors = res -> num_errors + 1u ;
}
}
static void load_nothing ( void * ip , void * mp , double * dst ) {
}
"""

# A resistor, up to the statements of its evaluation.
MODULE = """typedef struct {
uint32_t tag ;
double p0 ;
int32_t g0 ;
}
model_0 ;
typedef struct {
uint32_t node [ 2u ] ;
double * jr [ 1u ] ;
double * jq [ 1u ] ;
_Bool col [ 1u ] ;
double temp ;
double p0 ;
double r0 ;
double q0 ;
double r1 ;
double q1 ;
double er0 ;
}
inst_0 ;
static void * access_0 ( void * ip , void * mp , uint32_t id , uint32_t flags ) {
inst_0 * inst = ( inst_0 * ) ip ;
model_0 * model = ( model_0 * ) mp ;
if ( id == 0u ) {
if ( flags & ACCESS_FLAG_SET ) {
model -> g0 = 1 ;
}
return & model -> p0 ;
}
return 0 ;
}
static void setup_model_0 ( void * handle , void * mp , OsdiSimParas * sim , OsdiInitInfo * res ) {
model_0 * model = ( model_0 * ) mp ;
res -> flags = 0u ;
res -> num_errors = 0u ;
res -> errors = 0 ;
}
static void setup_instance_0 ( void * handle , void * ip , void * mp , double temperature , uint32_t num_terminals , OsdiSimParas * sim , OsdiInitInfo * res ) {
inst_0 * inst = ( inst_0 * ) ip ;
model_0 * model = ( model_0 * ) mp ;
res -> flags = 0u ;
res -> num_errors = 0u ;
res -> errors = 0 ;
inst -> temp = temperature ;
inst -> p0 = model -> p0 ;
}
static uint32_t eval_0 ( void * handle , void * ip , void * mp , OsdiSimInfo * info ) {
inst_0 * inst = ( inst_0 * ) ip ;
model_0 * model = ( model_0 * ) mp ;
const double * x = info -> prev_solve ;
const double v0 = x [ inst -> node [ 0u ] ] ;
"""

# Seven statements, each of which reads a local before it.
STEP = """const double v{a} = v{z} * inst -> p0 ;
const double v{b} = exp ( v{a} ) ;
const int32_t v{c} = v{b} < 15e-1 ;
double v{d} ;
if ( v{c} ) {{
v{d} = v{a} ;
}}
else {{
const double v{e} = v{b} - v0 ;
v{d} = v{e} ;
}}
"""
LOCALS = 5

TAIL = """inst -> r0 = v{z} ;
return 0u ;
}}
static void load_residual_resist_0 ( void * ip , void * mp , double * dst ) {{
inst_0 * inst = ( inst_0 * ) ip ;
dst [ inst -> node [ 0u ] ] += inst -> r0 ;
}}
static void load_residual_react_0 ( void * ip , void * mp , double * dst ) {{
inst_0 * inst = ( inst_0 * ) ip ;
}}
static void load_jacobian_resist_0 ( void * ip , void * mp ) {{
inst_0 * inst = ( inst_0 * ) ip ;
* inst -> jr [ 0u ] += inst -> er0 ;
}}
static void load_jacobian_react_0 ( void * ip , void * mp , double alpha ) {{
inst_0 * inst = ( inst_0 * ) ip ;
}}
static void load_jacobian_tran_0 ( void * ip , void * mp , double alpha ) {{
inst_0 * inst = ( inst_0 * ) ip ;
}}
static void load_spice_rhs_dc_0 ( void * ip , void * mp , double * dst , double * x ) {{
inst_0 * inst = ( inst_0 * ) ip ;
}}
static void load_spice_rhs_tran_0 ( void * ip , void * mp , double * dst , double * x , double alpha ) {{
inst_0 * inst = ( inst_0 * ) ip ;
}}
OsdiNode nodes_0 [ ] = {{
{{
.name = "a" , .units = "V" , .residual_units = "A" , .resist_residual_off = offsetof ( inst_0 , r0 ) , .react_residual_off = offsetof ( inst_0 , q0 ) , .resist_limit_rhs_off = UINT32_MAX , .react_limit_rhs_off = UINT32_MAX , .is_flow = 0 }}
, {{
.name = "c" , .units = "V" , .residual_units = "A" , .resist_residual_off = offsetof ( inst_0 , r1 ) , .react_residual_off = offsetof ( inst_0 , q1 ) , .resist_limit_rhs_off = UINT32_MAX , .react_limit_rhs_off = UINT32_MAX , .is_flow = 0 }}
, {{
0 }}
}}
;
OsdiJacobianEntry entries_0 [ ] = {{
{{
.nodes = {{
.node_1 = 0u , .node_2 = 0u }}
, .react_ptr_off = UINT32_MAX , .flags = JACOBIAN_ENTRY_RESIST }}
, {{
0 }}
}}
;
OsdiNodePair collapse_0 [ ] = {{
{{
0 }}
}}
;
OsdiParamOpvar params_0 [ ] = {{
{{
.name = ( char * [ ] ) {{
"r" }}
, .num_alias = 0u , .description = "" , .units = "" , .flags = PARA_TY_REAL | PARA_KIND_MODEL , .len = 0u }}
, {{
0 }}
}}
;
const uint32_t OSDI_VERSION_MAJOR = 0u ;
const uint32_t OSDI_VERSION_MINOR = 3u ;
const uint32_t OSDI_NUM_DESCRIPTORS = 1u ;
const OsdiDescriptor OSDI_DESCRIPTORS [ ] = {{
{{
.name = "m" , .num_nodes = 2u , .num_terminals = 2u , .nodes = nodes_0 , .num_jacobian_entries = 1u , .jacobian_entries = entries_0 , .num_collapsible = 0u , .collapsible = collapse_0 , .collapsed_offset = offsetof ( inst_0 , col ) , .noise_sources = 0 , .num_noise_src = 0u , .num_params = 1u , .num_instance_params = 0u , .num_opvars = 0u , .param_opvar = params_0 , .node_mapping_offset = offsetof ( inst_0 , node ) , .jacobian_ptr_resist_offset = offsetof ( inst_0 , jr ) , .num_states = 0u , .state_idx_off = 0u , .bound_step_offset = UINT32_MAX , .instance_size = sizeof ( inst_0 ) , .model_size = sizeof ( model_0 ) , .access = access_0 , .setup_model = setup_model_0 , .setup_instance = setup_instance_0 , .eval = eval_0 , .load_noise = 0 , .load_limit_rhs_resist = load_nothing , .load_limit_rhs_react = load_nothing , .load_residual_resist = load_residual_resist_0 , .load_residual_react = load_residual_react_0 , .load_jacobian_resist = load_jacobian_resist_0 , .load_jacobian_react = load_jacobian_react_0 , .load_jacobian_tran = load_jacobian_tran_0 , .load_spice_rhs_dc = load_spice_rhs_dc_0 , .load_spice_rhs_tran = load_spice_rhs_tran_0 }}
, {{
0 }}
}}
;
"""


def whole(write, size):
    """A file of about so many bytes whose evaluation has most of them. Its tokens are not counted."""
    write(HEAD)
    write(MODULE)
    left, z = size - len(HEAD) - len(MODULE) - len(TAIL), 0
    while left > 0:
        step = STEP.format(z=z, a=z + 1, b=z + 2, c=z + 3, e=z + 4, d=z + LOCALS)
        write(step)
        left, z = left - len(step), z + LOCALS
    write(TAIL.format(z=z))
    return 0


OPEN = 'for ( ; ; ) {\n'
CLOSE = """if ( ! v1 ) {
break ;
}
}
"""


def blocks(write, size):
    """The same, of loops in one another that never end: 7 tokens each."""
    write(HEAD)
    write(MODULE)
    loops = (size - len(HEAD) - len(MODULE)) // len(OPEN)
    for _ in range(loops):
        write(OPEN)
    return 7 * loops


def closed(write, size):
    """The same, of loops in one another that are left and closed: 17 tokens each."""
    write(HEAD)
    write(MODULE)
    write('const int32_t v1 = 1 ;\n')
    loops = (size - len(HEAD) - len(MODULE) - len(TAIL)) // len(OPEN + CLOSE)
    for piece in (OPEN, CLOSE):
        for _ in range(loops):
            write(piece)
    write(TAIL.format(z=0))
    return 17 * loops


def joined(write, size):
    """The same, of locals that one `if` sets in each of its arms: 11 tokens each."""
    write(HEAD)
    write(MODULE)
    write('const int32_t v1 = 1 ;\n')
    count = (size - len(HEAD) - len(MODULE) - len(TAIL)) // len('double v9999999 ;\n' + 2 * 'v9999999 = v0 ;\n')
    for start, line, end in (('', 'double v{} ;\n', ''), ('if ( v1 ) {\n', 'v{} = v0 ;\n', '}\n'), ('else {\n', 'v{} = v0 ;\n', '}\n')):
        write(start)
        for number in range(count):
            write(line.format(number + 2))
        write(end)
    write(TAIL.format(z=0))
    return 11 * count


AGAIN = 'double v1 ;\n'


def again(write, size):
    """The same, of one number that is a constant and then is declared again and again. Its tokens are not counted."""
    write(HEAD)
    write(MODULE)
    write('const double v1 = v0 ;\n')
    for _ in range((size - len(HEAD) - len(MODULE) - len(TAIL)) // len(AGAIN)):
        write(AGAIN)
    write(TAIL.format(z=0))
    return 0


class Text:
    """A file in a folder of its own, with its size and, where they count, its tokens."""

    def __init__(self, top, name, make, size):
        self.folder = os.path.join(top, name)
        os.mkdir(self.folder)
        path = os.path.join(self.folder, 'm.c')
        with open(path, 'w') as file:
            self.tokens = make(file.write, size)
        self.size = os.path.getsize(path)


def told(name, text, run, notes):
    print(f'{name:>24} {text.size / (1 << 20):7.1f} {run.seconds:8.3f} {run.peak:8.1f}  {", ".join(notes)}')
    return bool(notes)


def doubled(name, make, status, runs):
    """Files of 16 and 32 MB, which are to end with this status; the number of bounds passed."""
    passed = 0
    with tempfile.TemporaryDirectory() as top:
        texts = [Text(top, f'{n} MB', make, n << 20) for n in (16, 32)]
        taken = measured([(text.folder, [PROGRAM, 'read', 'm.c']) for text in texts], runs)
        for text, run in zip(texts, taken):
            size = run.peak * (1 << 20) / text.size
            notes = [] if run.status == status else [f'status {run.status}']
            notes += [f'{size:.0f} times its size'] if size > MOST else []
            passed += told(name, text, run, notes)
        factor = growth(*taken)
        passed += factor > GROWTH
        print(f'{"for twice the text":>24} {factor:16.2f}  {"" if factor <= GROWTH else "above"}')
    return passed


def largest():
    """A file of 64 MB beside the compiler; the number of bounds passed."""
    passed = 0
    with tempfile.TemporaryDirectory() as top:
        text = Text(top, 'large', whole, (64 << 20) - 4096)
        commands = [(text.folder, [PROGRAM, 'read', 'm.c'])]
        if shutil.which('gcc'):
            commands.append((text.folder, ['gcc', '-fsyntax-only', '-w', '-I', HEADERS, 'm.c']))
        run, *beside = measured(commands, 1)
        notes = [f'status {run.status}'] if run.status else []
        passed += told('the largest', text, run, notes)
        for other in beside:
            late = run.seconds > other.seconds
            passed += told('gcc -fsyntax-only', text, other, ['is faster'] if late else [])
    return passed


def large(name, make, size, status):
    """One large file, which is to end with this status; whether a bound is passed."""
    with tempfile.TemporaryDirectory() as top:
        text = Text(top, 'blocks', make, size)
        [run] = measured([(text.folder, [PROGRAM, 'read', 'm.c'])], 1)
        size = run.peak * (1 << 20) / text.tokens
        notes = [] if run.status == status else [f'status {run.status}']
        notes += [f'{size:.0f} bytes a token'] if size > BYTES else []
        return told(name, text, run, notes)


def bounds_passed(runs):
    rows = [('blocks without an end', blocks, 32 << 20, 1), ('loops in one another', closed, 60 << 20, 0), ('locals of one if', joined, 60 << 20, 0)]
    printed = doubled('a file as it is printed', whole, 0, runs) + largest()
    return printed + doubled('one number again', again, 1, runs) + sum(large(*row) for row in rows)


if __name__ == '__main__':
    run_bench(__doc__, f'{"file":>24} {"MB":>7} {"s":>8} {"peak MB":>8}', bounds_passed)
