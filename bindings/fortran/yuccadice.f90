! Yuccadice for Fortran: red/green refinement of tetrahedral meshes, every promise of the library proved.
!
!     gfortran yuccadice.f90 PROGRAM.f90 libyuccadice.a
!
! Each function answers YD_ACCEPTED, or the number of a refusal; include/yuccadice.h says what each takes and what each table
! holds after. A table is an array and then its length. Cell and corner numbers count from 0, as everywhere in the library, so
! cell k has the numbers table(8*k+1:8*k+8) of a layout, and corner k the ends ends(2*k+1:2*k+2).
!
! Fortran has no unsigned numbers: bytes and 16-bit numbers are taken as signed ones of the same size. Every status, mark,
! cell and corner number of an accepted table is the same in both; the parent of a coarse cell reads as -1 (YD_NO_PARENT), and
! the store of a part is kept as it is. Part k has the numbers stores((k-1)*YD_STORE_LENGTH+1:k*YD_STORE_LENGTH).
! Pass an array that is allocated, also where it is empty. A step may renumber cells, and corners that stay.
module yuccadice
  use, intrinsic :: iso_c_binding, only: c_int8_t, c_int16_t, c_int32_t, c_size_t, c_double
  implicit none
  private :: c_int8_t, c_int16_t, c_int32_t, c_size_t, c_double

  ! The version of this module and its library.
  character(len=*), parameter :: YD_VERSION = "1.3.0"
  integer(c_int32_t), parameter :: YD_VERSION_NUMBER = 10300_c_int32_t

  ! The limits.
  integer(c_size_t), parameter :: YD_MOST_COARSE_CORNERS = 512_c_size_t ! 4 to 512 corners of a coarse mesh
  integer(c_size_t), parameter :: YD_MOST_COARSE_CELLS = 256_c_size_t ! 1 to 256 cells of a coarse mesh
  ! a coordinate is from -500,000 to 500,000 tenths of a millimetre
  integer(c_int32_t), parameter :: YD_MOST_COORDINATE = 500000_c_int32_t
  integer(c_size_t), parameter :: YD_MOST_CELLS = 4096_c_size_t ! cells over all levels
  integer(c_size_t), parameter :: YD_MOST_CORNERS = 16384_c_size_t ! corners of a table
  integer(c_size_t), parameter :: YD_MOST_LEVELS = 11_c_size_t ! levels 0 to 10
  integer(c_size_t), parameter :: YD_MOST_BYTES = 65536_c_size_t ! bytes of an archive
  integer(c_size_t), parameter :: YD_MOST_PARTS = 16_c_size_t ! 1 to 16 parts of a split job
  integer(c_size_t), parameter :: YD_STACK = 1048576_c_size_t ! bytes of stack: more than any call needs

  ! The full lengths of lent tables.
  integer(c_size_t), parameter :: YD_DIGITS_LENGTH = 32_c_size_t ! four digits a child
  integer(c_size_t), parameter :: YD_TABLE_LENGTH = 32768_c_size_t ! eight numbers a cell
  integer(c_size_t), parameter :: YD_ENDS_LENGTH = 32768_c_size_t ! two numbers a corner
  integer(c_size_t), parameter :: YD_SUMS_LENGTH = 49152_c_size_t ! three numbers a corner
  integer(c_size_t), parameter :: YD_COUNTS_LENGTH = 44_c_size_t ! four numbers a level
  integer(c_size_t), parameter :: YD_STATUS_LENGTH = 4096_c_size_t ! a status a cell
  integer(c_size_t), parameter :: YD_POSITIONS_LENGTH = 1536_c_size_t ! three numbers a coarse corner
  integer(c_size_t), parameter :: YD_COARSE_CELLS_LENGTH = 1024_c_size_t ! four numbers a coarse cell
  integer(c_size_t), parameter :: YD_MARKED_LENGTH = 16384_c_size_t ! a cell number a mark
  integer(c_size_t), parameter :: YD_MARKS_LENGTH = 16384_c_size_t ! 1 or 2 a mark
  integer(c_size_t), parameter :: YD_STEP_ENDS_LENGTH = 65536_c_size_t ! a number a step
  integer(c_size_t), parameter :: YD_BYTES_LENGTH = 65536_c_size_t ! the bytes of an archive
  integer(c_size_t), parameter :: YD_STORE_LENGTH = 226488_c_size_t ! the store of a part
  integer(c_size_t), parameter :: YD_STORES_LENGTH = 3623808_c_size_t ! sixteen stores, whatever the number of parts
  integer(c_size_t), parameter :: YD_MESSAGE_LENGTH = 9_c_size_t ! the longest message
  integer(c_size_t), parameter :: YD_HELD_LENGTH = 57344_c_size_t ! fourteen numbers a master or ghost

  ! Answers.
  integer(c_int8_t), parameter :: YD_ACCEPTED = 0_c_int8_t
  ! too few or too many corners or cells, or a list's length no multiple of 3 or 4
  integer(c_int8_t), parameter :: YD_REFUSED_COUNTS = 1_c_int8_t
  integer(c_int8_t), parameter :: YD_REFUSED_RANGE = 2_c_int8_t ! a coordinate out of its range
  ! a cell's corner numbers do not ascend strictly, or are not below the count
  integer(c_int8_t), parameter :: YD_REFUSED_NUMBERS = 3_c_int8_t
  integer(c_int8_t), parameter :: YD_REFUSED_FLAT = 4_c_int8_t ! a flat cell
  integer(c_int8_t), parameter :: YD_REFUSED_FACES = 5_c_int8_t ! two cells with the same corners, or a face in three cells
  integer(c_int8_t), parameter :: YD_REFUSED_STATUS = 6_c_int8_t ! a status table that is not sound, or a pattern above 63
  ! marks of wrong length, above 2 or not 0 on a refined cell, or a cell or corner number not below the count
  integer(c_int8_t), parameter :: YD_REFUSED_MARKS = 7_c_int8_t
  integer(c_int8_t), parameter :: YD_REFUSED_LEVEL = 8_c_int8_t ! a level above 10 would arise
  integer(c_int8_t), parameter :: YD_REFUSED_CELLS = 9_c_int8_t ! more than 4,096 cells would arise
  integer(c_int8_t), parameter :: YD_REFUSED_PARTS = 10_c_int8_t ! a number of parts that is not 1 to 16
  ! owners of wrong length or out of range, or two in a family
  integer(c_int8_t), parameter :: YD_REFUSED_OWNERS = 11_c_int8_t
  ! a message of no known form, for another part, of what the part does not hold, or with a value out of range
  integer(c_int8_t), parameter :: YD_REFUSED_MESSAGE = 12_c_int8_t
  integer(c_int8_t), parameter :: YD_REFUSED_TAKEN = 13_c_int8_t ! a message that was taken before
  integer(c_int8_t), parameter :: YD_REFUSED_EARLY = 14_c_int8_t ! a message that comes too early, or to a part that is done
  integer(c_int8_t), parameter :: YD_REFUSED_SHORT = 15_c_int8_t ! a lent table is shorter than its full length
  ! a store out of range, or at a stage that the call does not fit, or stores that do not make one table
  integer(c_int8_t), parameter :: YD_REFUSED_STORE = 16_c_int8_t
  ! an archive's bytes are not in the form, or would be more than 65,536
  integer(c_int8_t), parameter :: YD_REFUSED_FORM = 17_c_int8_t

  ! A status, a mark, and the parent of a coarse cell.
  integer(c_int8_t), parameter :: YD_LEAF = 0_c_int8_t
  integer(c_int8_t), parameter :: YD_RED = 64_c_int8_t ! 1 to 63: green, closed with that pattern
  integer(c_int8_t), parameter :: YD_REFINE = 1_c_int8_t
  integer(c_int8_t), parameter :: YD_DELETE = 2_c_int8_t
  integer(c_int16_t), parameter :: YD_NO_PARENT = -1_c_int16_t ! 65,535

  ! The stage of a part.
  integer(c_size_t), parameter :: YD_RUNNING = 1_c_size_t
  integer(c_size_t), parameter :: YD_DONE = 2_c_size_t

  interface
    ! The children of a cell with this pattern of split edges (1, 2, 4, 8, 16, 32 for 12, 13, 14, 23, 24, 34).
    function yd_cut(pattern, digits, digits_length, count) bind(c) result(answer)
      import :: c_int8_t, c_size_t
      integer(c_int8_t), value :: pattern
      integer(c_int8_t), intent(inout) :: digits(*)
      integer(c_size_t), value :: digits_length
      integer(c_size_t), intent(inout) :: count
      integer(c_int8_t) :: answer
    end function

    ! Whether a coarse mesh is accepted.
    function yd_examine_mesh(positions, positions_length, cells, cells_length) bind(c) result(answer)
      import :: c_int8_t, c_int16_t, c_int32_t, c_size_t
      integer(c_int32_t), intent(in) :: positions(*)
      integer(c_size_t), value :: positions_length, cells_length
      integer(c_int16_t), intent(in) :: cells(*)
      integer(c_int8_t) :: answer
    end function

    ! Whether a status table over a coarse mesh is accepted.
    function yd_examine_table(positions, positions_length, cells, cells_length, status, status_length) bind(c) result(answer)
      import :: c_int8_t, c_int16_t, c_int32_t, c_size_t
      integer(c_int32_t), intent(in) :: positions(*)
      integer(c_size_t), value :: positions_length, cells_length, status_length
      integer(c_int16_t), intent(in) :: cells(*)
      integer(c_int8_t), intent(in) :: status(*)
      integer(c_int8_t) :: answer
    end function

    ! Lays the cells and corners of a status table out.
    function yd_lay_out(positions, positions_length, cells, cells_length, status, status_length, table, table_length, ends, &
                        ends_length, sums, sums_length, cell_count, corner_count, level_count) bind(c) result(answer)
      import :: c_int8_t, c_int16_t, c_int32_t, c_size_t
      integer(c_int32_t), intent(in) :: positions(*)
      integer(c_size_t), value :: positions_length, cells_length, status_length, table_length, ends_length, sums_length
      integer(c_int16_t), intent(in) :: cells(*)
      integer(c_int8_t), intent(in) :: status(*)
      integer(c_int16_t), intent(inout) :: table(*), ends(*)
      integer(c_int32_t), intent(inout) :: sums(*)
      integer(c_size_t), intent(inout) :: cell_count, corner_count, level_count
      integer(c_int8_t) :: answer
    end function

    ! The position of a corner of a layout of so many corners, in tenths of a millimetre, exact.
    function yd_position(sums, sums_length, corners, corner, x, y, z) bind(c) result(answer)
      import :: c_int8_t, c_int32_t, c_size_t, c_double
      integer(c_int32_t), intent(in) :: sums(*)
      integer(c_size_t), value :: sums_length, corners, corner
      real(c_double), intent(inout) :: x, y, z
      integer(c_int8_t) :: answer
    end function

    ! The coarse cell that a cell lies in, and the number of turns from parent to parent, which is the cell's level.
    function yd_ancestor(positions, positions_length, cells, cells_length, status, status_length, cell, coarse, level) &
                         bind(c) result(answer)
      import :: c_int8_t, c_int16_t, c_int32_t, c_size_t
      integer(c_int32_t), intent(in) :: positions(*)
      integer(c_size_t), value :: positions_length, cells_length, status_length, cell
      integer(c_int16_t), intent(in) :: cells(*)
      integer(c_int8_t), intent(in) :: status(*)
      integer(c_size_t), intent(inout) :: coarse, level
      integer(c_int8_t) :: answer
    end function

    ! The counts of each level of a status table.
    function yd_counts(positions, positions_length, cells, cells_length, status, status_length, counts, counts_length, &
                       level_count) bind(c) result(answer)
      import :: c_int8_t, c_int16_t, c_int32_t, c_size_t
      integer(c_int32_t), intent(in) :: positions(*)
      integer(c_size_t), value :: positions_length, cells_length, status_length, counts_length
      integer(c_int16_t), intent(in) :: cells(*)
      integer(c_int8_t), intent(in) :: status(*)
      integer(c_int16_t), intent(inout) :: counts(*)
      integer(c_size_t), intent(inout) :: level_count
      integer(c_int8_t) :: answer
    end function

    ! One step.
    function yd_step(positions, positions_length, cells, cells_length, status, status_length, marks, marks_length, table, &
                     table_length, cell_count) bind(c) result(answer)
      import :: c_int8_t, c_int16_t, c_int32_t, c_size_t
      integer(c_int32_t), intent(in) :: positions(*)
      integer(c_size_t), value :: positions_length, cells_length, status_length, marks_length, table_length
      integer(c_int16_t), intent(in) :: cells(*)
      integer(c_int8_t), intent(in) :: status(*), marks(*)
      integer(c_int8_t), intent(inout) :: table(*)
      integer(c_size_t), intent(inout) :: cell_count
      integer(c_int8_t) :: answer
    end function

    ! The job of an archive.
    function yd_read(bytes, bytes_length, positions, positions_length, cells, cells_length, marked, marked_length, marks, &
                     marks_length, step_ends, step_ends_length, corner_count, cell_count, mark_count, step_count) &
                     bind(c) result(answer)
      import :: c_int8_t, c_int16_t, c_int32_t, c_size_t
      integer(c_int8_t), intent(in) :: bytes(*)
      integer(c_size_t), value :: bytes_length, positions_length, cells_length, marked_length, marks_length, step_ends_length
      integer(c_int32_t), intent(inout) :: positions(*)
      integer(c_int16_t), intent(inout) :: cells(*), marked(*), step_ends(*)
      integer(c_int8_t), intent(inout) :: marks(*)
      integer(c_size_t), intent(inout) :: corner_count, cell_count, mark_count, step_count
      integer(c_int8_t) :: answer
    end function

    ! The archive of a job, whose tables are those of yd_read at the lengths used.
    function yd_write(positions, positions_length, cells, cells_length, marked, marked_length, marks, marks_length, &
                      step_ends, step_ends_length, bytes, bytes_length, byte_count) bind(c) result(answer)
      import :: c_int8_t, c_int16_t, c_int32_t, c_size_t
      integer(c_int32_t), intent(in) :: positions(*)
      integer(c_size_t), value :: positions_length, cells_length, marked_length, marks_length, step_ends_length, bytes_length
      integer(c_int16_t), intent(in) :: cells(*), marked(*), step_ends(*)
      integer(c_int8_t), intent(in) :: marks(*)
      integer(c_int8_t), intent(inout) :: bytes(*)
      integer(c_size_t), intent(inout) :: byte_count
      integer(c_int8_t) :: answer
    end function

    ! Does an archive's steps again.
    function yd_replay(bytes, bytes_length, table, table_length, counts, counts_length, cell_count, level_count) &
                       bind(c) result(answer)
      import :: c_int8_t, c_int16_t, c_size_t
      integer(c_int8_t), intent(in) :: bytes(*)
      integer(c_size_t), value :: bytes_length, table_length, counts_length
      integer(c_int8_t), intent(inout) :: table(*)
      integer(c_int16_t), intent(inout) :: counts(*)
      integer(c_size_t), intent(inout) :: cell_count, level_count
      integer(c_int8_t) :: answer
    end function

    ! Splits a status table over so many parts.
    function yd_split(positions, positions_length, cells, cells_length, status, status_length, parts, owners, owners_length, &
                      stores, stores_length) bind(c) result(answer)
      import :: c_int8_t, c_int16_t, c_int32_t, c_size_t
      integer(c_int32_t), intent(in) :: positions(*)
      integer(c_size_t), value :: positions_length, cells_length, status_length, parts, owners_length, stores_length
      integer(c_int16_t), intent(in) :: cells(*)
      integer(c_int8_t), intent(in) :: status(*), owners(*)
      integer(c_int16_t), intent(inout) :: stores(*)
      integer(c_int8_t) :: answer
    end function

    ! Starts a part.
    function yd_start(store, store_length, marks, marks_length) bind(c) result(answer)
      import :: c_int8_t, c_int16_t, c_size_t
      integer(c_int16_t), intent(inout) :: store(*)
      integer(c_size_t), value :: store_length, marks_length
      integer(c_int8_t), intent(in) :: marks(*)
      integer(c_int8_t) :: answer
    end function

    ! Leads a part to its next round, and at last to its end.
    function yd_part_step(store, store_length) bind(c) result(answer)
      import :: c_int8_t, c_int16_t, c_size_t
      integer(c_int16_t), intent(inout) :: store(*)
      integer(c_size_t), value :: store_length
      integer(c_int8_t) :: answer
    end function

    ! The next message that a part has written; its length is 0 where there is none to send.
    function yd_fetch(store, store_length, bytes, bytes_length, byte_count) bind(c) result(answer)
      import :: c_int8_t, c_int16_t, c_size_t
      integer(c_int16_t), intent(inout) :: store(*)
      integer(c_size_t), value :: store_length, bytes_length
      integer(c_int8_t), intent(inout) :: bytes(*)
      integer(c_size_t), intent(inout) :: byte_count
      integer(c_int8_t) :: answer
    end function

    ! Hands a message over to a part.
    function yd_hand_over(store, store_length, bytes, bytes_length) bind(c) result(answer)
      import :: c_int8_t, c_int16_t, c_size_t
      integer(c_int16_t), intent(inout) :: store(*)
      integer(c_size_t), value :: store_length, bytes_length
      integer(c_int8_t), intent(in) :: bytes(*)
      integer(c_int8_t) :: answer
    end function

    ! How far a part is.
    function yd_stage(store, store_length, stage, round, result) bind(c) result(answer)
      import :: c_int8_t, c_int16_t, c_size_t
      integer(c_int16_t), intent(in) :: store(*)
      integer(c_size_t), value :: store_length
      integer(c_size_t), intent(inout) :: stage, round, result
      integer(c_int8_t) :: answer
    end function

    ! The masters and ghosts of a part that is done.
    function yd_held(store, store_length, rows, rows_length, row_count) bind(c) result(answer)
      import :: c_int8_t, c_int16_t, c_size_t
      integer(c_int16_t), intent(in) :: store(*)
      integer(c_size_t), value :: store_length, rows_length
      integer(c_int16_t), intent(inout) :: rows(*)
      integer(c_size_t), intent(inout) :: row_count
      integer(c_int8_t) :: answer
    end function

    ! The table that all parts make.
    function yd_merge(stores, stores_length, table, table_length, cell_count) bind(c) result(answer)
      import :: c_int8_t, c_int16_t, c_size_t
      integer(c_int16_t), intent(in) :: stores(*)
      integer(c_size_t), value :: stores_length, table_length
      integer(c_int8_t), intent(inout) :: table(*)
      integer(c_size_t), intent(inout) :: cell_count
      integer(c_int8_t) :: answer
    end function
  end interface
end module
