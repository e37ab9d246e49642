! Tests of the module: bindings/fortran/test.sh
program test
  use, intrinsic :: iso_c_binding
  use yuccadice
  implicit none
  integer(c_int32_t), parameter :: positions(12) = [0, 0, 0, 16, 0, 0, 0, 16, 0, 0, 0, 16] ! mesh A of document 01
  integer(c_int16_t), parameter :: cells(4) = [integer(c_int16_t) :: 0, 1, 2, 3]
  integer(c_int16_t), allocatable :: table(:), ends(:), counts(:), coarse_cells(:), marked(:), step_ends(:)
  integer(c_int32_t), allocatable :: sums(:), coarse(:)
  integer(c_int8_t), allocatable :: status(:), marks(:), bytes(:), again(:), digits(:)
  integer(c_int16_t), allocatable :: stores(:), rows(:)
  integer(c_int16_t) :: none(0)
  integer(c_int8_t) :: no_marks(0)
  integer(c_size_t) :: n, m, corners, levels, ancestor, level, steps, length
  integer(c_size_t) :: stage, round, ended
  real(c_double) :: x, y, z
  integer(c_size_t), parameter :: p = 12, c = 4, one = 1, zero = 0

  allocate (table(YD_TABLE_LENGTH), ends(YD_ENDS_LENGTH), sums(YD_SUMS_LENGTH), counts(YD_COUNTS_LENGTH))
  allocate (status(YD_STATUS_LENGTH), again(YD_STATUS_LENGTH), bytes(YD_BYTES_LENGTH), marks(YD_MARKS_LENGTH))
  allocate (coarse(YD_POSITIONS_LENGTH), coarse_cells(YD_COARSE_CELLS_LENGTH), marked(YD_MARKED_LENGTH))
  allocate (step_ends(YD_STEP_ENDS_LENGTH), digits(YD_DIGITS_LENGTH))

  call check(YD_VERSION == '1.3.0' .and. YD_VERSION_NUMBER == 10300, 'version')
  call check(yd_cut(1_c_int8_t, digits, YD_DIGITS_LENGTH, n) == YD_ACCEPTED, 'cut')
  call check(n == 2 .and. all(digits(:8) == [0, 1, 7, 9, 1, 4, 7, 9]), 'family of pattern 1')
  call check(yd_cut(64_c_int8_t, digits, YD_DIGITS_LENGTH, n) == YD_REFUSED_STATUS, 'pattern 64')
  call check(yd_cut(1_c_int8_t, digits, YD_DIGITS_LENGTH - 1, n) == YD_REFUSED_SHORT, 'short table')
  call check(yd_examine_mesh(positions, p, cells, c) == YD_ACCEPTED, 'mesh A')
  call check(yd_examine_mesh(positions, p, cells, 3_c_size_t) == YD_REFUSED_COUNTS, 'three numbers of a cell')
  call check(yd_examine_table(positions, p, cells, c, [YD_LEAF], one) == YD_ACCEPTED, 'a leaf')
  call check(yd_examine_table(positions, p, cells, c, [YD_RED], one) == YD_REFUSED_STATUS, 'a red cell without children')

  ! Case B: cell 0 refined. Case C: cell 1 of B refined.
  call check(yd_step(positions, p, cells, c, [YD_LEAF], one, [YD_REFINE], one, status, YD_STATUS_LENGTH, n) == YD_ACCEPTED, 'B')
  call check(n == 9 .and. status(1) == YD_RED .and. all(status(2:9) == YD_LEAF), 'table of B')
  marks(:9) = 0
  marks(2) = YD_REFINE
  call check(yd_step(positions, p, cells, c, status, n, marks, n, again, YD_STATUS_LENGTH, m) == YD_ACCEPTED, 'C')
  status = again
  call check(m == 25 .and. all(status(:9) == [64, 64, 11, 1, 0, 1, 0, 0, 0]), 'table of C')
  call check(yd_lay_out(positions, p, cells, c, status, m, table, YD_TABLE_LENGTH, ends, YD_ENDS_LENGTH, sums, YD_SUMS_LENGTH, &
                        n, corners, levels) == YD_ACCEPTED, 'layout')
  call check(n == 25 .and. corners == 16 .and. levels == 3, 'sizes of the layout')
  call check(table(2) == YD_NO_PARENT .and. all(table(5:8) == cells) .and. all(ends(9:10) == [0, 1]), 'rows of the layout')
  call check(yd_position(sums, YD_SUMS_LENGTH, corners, 7_c_size_t, x, y, z) == YD_ACCEPTED, 'position')
  call check(x == 8 .and. y == 8 .and. z == 0, 'corner 7')
  call check(yd_position(sums, YD_SUMS_LENGTH, corners, corners, x, y, z) == YD_REFUSED_MARKS, 'corner 16')
  call check(yd_ancestor(positions, p, cells, c, status, m, 24_c_size_t, ancestor, level) == YD_ACCEPTED, 'ancestor')
  call check(ancestor == 0 .and. level == 2, 'ancestor of cell 24')
  call check(yd_counts(positions, p, cells, c, status, m, counts, YD_COUNTS_LENGTH, levels) == YD_ACCEPTED, 'counts')
  call check(levels == 3 .and. all(counts(:12) == [1, 1, 0, 0, 8, 1, 3, 4, 16, 0, 0, 16]), 'counts of C')

  ! The archive of C, and one without steps.
  call check(yd_write(positions, p, cells, c, [integer(c_int16_t) :: 0, 1], 2_c_size_t, [YD_REFINE, YD_REFINE], 2_c_size_t, &
                      [integer(c_int16_t) :: 1, 2], 2_c_size_t, bytes, YD_BYTES_LENGTH, length) == YD_ACCEPTED, 'write')
  call check(length == 4*13 + 9 + 5 + 5 + 1, 'bytes of the archive')
  call check(yd_read(bytes, length, coarse, YD_POSITIONS_LENGTH, coarse_cells, YD_COARSE_CELLS_LENGTH, marked, YD_MARKED_LENGTH, &
                     marks, YD_MARKS_LENGTH, step_ends, YD_STEP_ENDS_LENGTH, corners, n, m, steps) == YD_ACCEPTED, 'read')
  call check(corners == 4 .and. n == 1 .and. m == 2 .and. steps == 2, 'sizes of the job')
  call check(all(coarse(:12) == positions) .and. all(marked(:2) == [0, 1]) .and. all(step_ends(:2) == [1, 2]), 'job')
  call check(yd_replay(bytes, length, again, YD_STATUS_LENGTH, counts, YD_COUNTS_LENGTH, n, levels) == YD_ACCEPTED, 'replay')
  call check(n == 25 .and. levels == 3 .and. all(again(:25) == status(:25)), 'table of the replay')
  call check(yd_replay(bytes, length - 1, again, YD_STATUS_LENGTH, counts, YD_COUNTS_LENGTH, n, levels) == YD_REFUSED_FORM, 'no E')
  call check(yd_write(positions, p, cells, c, none, zero, no_marks, zero, none, zero, bytes, YD_BYTES_LENGTH, length) &
             == YD_ACCEPTED, 'write a job without steps')
  call check(length == 4*13 + 9 + 1, 'bytes of an archive without steps')

  ! A on one part: cell 0 refined.
  allocate (stores(YD_STORES_LENGTH), rows(YD_HELD_LENGTH))
  call check(yd_split(positions, p, cells, c, [YD_LEAF], one, 17_c_size_t, [1_c_int8_t], one, stores, YD_STORES_LENGTH) &
             == YD_REFUSED_PARTS, '17 parts')
  call check(yd_split(positions, p, cells, c, [YD_LEAF], one, one, [1_c_int8_t], one, stores, YD_STORES_LENGTH) &
             == YD_ACCEPTED, 'split')
  call check(yd_fetch(stores, YD_STORE_LENGTH, bytes, YD_MESSAGE_LENGTH, length) == YD_REFUSED_STORE, 'a part before its start')
  call check(yd_start(stores, YD_STORE_LENGTH, [YD_REFINE], one) == YD_ACCEPTED, 'start')
  call check(yd_fetch(stores, YD_STORE_LENGTH, bytes, YD_MESSAGE_LENGTH, length) == YD_ACCEPTED .and. length == 0, 'none to send')
  call check(yd_hand_over(stores, YD_STORE_LENGTH, bytes, one) == YD_REFUSED_MESSAGE, 'no message')
  do n = 0, 2
    call check(yd_stage(stores, YD_STORE_LENGTH, stage, round, ended) == YD_ACCEPTED, 'stage')
    call check(stage == YD_RUNNING .and. round == n .and. ended == 0, 'round')
    call check(yd_part_step(stores, YD_STORE_LENGTH) == YD_ACCEPTED, 'step of a part')
  end do
  call check(yd_stage(stores, YD_STORE_LENGTH, stage, round, ended) == YD_ACCEPTED .and. stage == YD_DONE, 'done')
  call check(yd_held(stores, YD_STORE_LENGTH, rows, YD_HELD_LENGTH, n) == YD_ACCEPTED .and. n == 9, 'masters')
  call check(yd_merge(stores, YD_STORES_LENGTH, again, YD_STATUS_LENGTH, n) == YD_ACCEPTED .and. n == 9, 'merge')
  call check(again(1) == YD_RED .and. all(again(2:9) == YD_LEAF), 'table of the merge')
  print '(a)', 'ok'

contains

  subroutine check(fact, what)
    logical, intent(in) :: fact
    character(len=*), intent(in) :: what
    if (.not. fact) then
      print '(2a)', 'test.f90: ', what
      stop 1
    end if
  end subroutine
end program
