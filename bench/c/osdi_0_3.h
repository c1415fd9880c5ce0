/* The names and fields that a printed C file uses, for the bench alone: what a compiler needs to check one. Not the published header. */
#include <stdint.h>

#define INIT_ERR_OUT_OF_BOUNDS 1u
#define ACCESS_FLAG_SET 1u
#define ACCESS_FLAG_INSTANCE 4u
#define PARA_TY_REAL 0u
#define PARA_TY_INT 1u
#define PARA_KIND_MODEL 0u
#define PARA_KIND_INST 65536u
#define PARA_KIND_OPVAR 131072u
#define JACOBIAN_ENTRY_RESIST 4u
#define JACOBIAN_ENTRY_REACT 8u

typedef struct {
  uint32_t code;
  union { uint32_t parameter_id; } payload;
} OsdiInitError;
typedef struct {
  uint32_t flags;
  uint32_t num_errors;
  OsdiInitError *errors;
} OsdiInitInfo;
typedef struct { char **names; } OsdiSimParas;
typedef struct { double *prev_solve; } OsdiSimInfo;
typedef struct {
  char *name, *units, *residual_units;
  uint32_t resist_residual_off, react_residual_off, resist_limit_rhs_off, react_limit_rhs_off;
  _Bool is_flow;
} OsdiNode;
typedef struct { uint32_t node_1, node_2; } OsdiNodePair;
typedef struct {
  OsdiNodePair nodes;
  uint32_t react_ptr_off, flags;
} OsdiJacobianEntry;
typedef struct {
  char **name;
  uint32_t num_alias;
  char *description, *units;
  uint32_t flags, len;
} OsdiParamOpvar;
typedef struct {
  char *name;
  uint32_t num_nodes, num_terminals;
  OsdiNode *nodes;
  uint32_t num_jacobian_entries;
  OsdiJacobianEntry *jacobian_entries;
  uint32_t num_collapsible;
  OsdiNodePair *collapsible;
  uint32_t collapsed_offset;
  void *noise_sources;
  uint32_t num_noise_src, num_params, num_instance_params, num_opvars;
  OsdiParamOpvar *param_opvar;
  uint32_t node_mapping_offset, jacobian_ptr_resist_offset, num_states, state_idx_off, bound_step_offset, instance_size, model_size;
  void *(*access)(void *, void *, uint32_t, uint32_t);
  void (*setup_model)(void *, void *, OsdiSimParas *, OsdiInitInfo *);
  void (*setup_instance)(void *, void *, void *, double, uint32_t, OsdiSimParas *, OsdiInitInfo *);
  uint32_t (*eval)(void *, void *, void *, OsdiSimInfo *);
  void *load_noise;
  void (*load_limit_rhs_resist)(void *, void *, double *);
  void (*load_limit_rhs_react)(void *, void *, double *);
  void (*load_residual_resist)(void *, void *, double *);
  void (*load_residual_react)(void *, void *, double *);
  void (*load_jacobian_resist)(void *, void *);
  void (*load_jacobian_react)(void *, void *, double);
  void (*load_jacobian_tran)(void *, void *, double);
  void (*load_spice_rhs_dc)(void *, void *, double *, double *);
  void (*load_spice_rhs_tran)(void *, void *, double *, double *, double);
} OsdiDescriptor;
