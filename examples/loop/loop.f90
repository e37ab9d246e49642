! A solver's loop: solve, mark, step, lay out, carry values over, archive. It makes samples/plate.mesh: loop OUT.mesh
!
! The plate of 240 x 120 x 30 mm is heated by a spot that moves along its upper side. The "solver" is a formula for the
! temperature; what is carried from mesh to mesh is the highest temperature that each corner has met. loop.py and loop.c do
! the same and print the same. From the repository:
!     gfortran -Jtarget bindings/fortran/yuccadice.f90 examples/loop/loop.f90 target/staticlib/libyuccadice.a -o target/loop
!     target/loop target/plate.mesh
!
! Cells and corners count from 0, as in the library; arrays of this program that have one entry each begin at 0.
program loop
  use, intrinsic :: iso_c_binding
  use, intrinsic :: iso_fortran_env, only: error_unit
  use yuccadice
  implicit none

  ! A mesh of the loop: its status table, its layout, the place of each corner.
  type mesh
    integer(c_int8_t) :: status(0:YD_STATUS_LENGTH - 1) = YD_LEAF
    integer(c_int16_t) :: table(8, 0:YD_MOST_CELLS - 1) = 0 ! level, parent, child, regular, four corners
    integer(c_int16_t) :: ends(2, 0:YD_MOST_CORNERS - 1) = 0
    integer(c_int32_t) :: sums(YD_SUMS_LENGTH) = 0
    real(c_double) :: points(3, 0:YD_MOST_CORNERS - 1) = 0
    integer(c_size_t) :: cells = 0, corners = 0, levels = 0
  end type

  integer, parameter :: steps = 4
  integer(c_size_t), parameter :: coarse_corners = 30, coarse_cells = 48
  ! Where the spot is in each step, in tenths of a millimetre.
  real(c_double), parameter :: spots(3, steps) = reshape([real(c_double) :: &
    300, 600, 300, 400, 600, 300, 800, 600, 300, 1100, 600, 300], [3, steps])

  integer(c_int32_t) :: positions(3, 0:coarse_corners - 1)
  integer(c_int16_t) :: cells(4, 0:coarse_cells - 1)
  type(mesh), allocatable :: old, new
  real(c_double), allocatable :: peak(:), carried(:)
  integer, allocatable :: was(:)
  integer(c_int8_t), allocatable :: mark_of(:), marks(:), bytes(:)
  integer(c_int16_t), allocatable :: marked(:)
  integer(c_int16_t) :: step_ends(steps)
  integer(c_size_t) :: mark_count, byte_count
  integer :: step, k, unit, status
  character(len=4096) :: name

  if (command_argument_count() /= 1) call fail('usage: loop OUT.mesh')
  call get_command_argument(1, name)
  allocate (old, new, marked(YD_MARKED_LENGTH), marks(YD_MARKS_LENGTH), bytes(YD_BYTES_LENGTH))
  allocate (mark_of(0:YD_MOST_CELLS - 1), was(0:YD_MOST_CORNERS - 1))
  allocate (peak(0:YD_MOST_CORNERS - 1), carried(0:YD_MOST_CORNERS - 1), source=0.0_c_double)
  call make_plate()
  old%cells = coarse_cells ! all of them leaves
  call lay_out(old)
  mark_count = 0
  do step = 1, steps
    do k = 0, int(old%corners) - 1 ! solve
      peak(k) = max(peak(k), temperature(old%points(:, k), spots(:, step)))
    end do
    call mark(old, spots(:, step))
    call accepted(yd_step(positions, size(positions, kind=c_size_t), cells, size(cells, kind=c_size_t), old%status, old%cells, &
                          mark_of, old%cells, new%status, YD_STATUS_LENGTH, new%cells))
    do k = 0, int(old%cells) - 1
      if (mark_of(k) == 0) cycle
      if (mark_count == YD_MARKED_LENGTH) call accepted(YD_REFUSED_FORM) ! more marks than an archive has room for
      mark_count = mark_count + 1
      marked(mark_count) = int(k, c_int16_t)
      marks(mark_count) = mark_of(k)
    end do
    step_ends(step) = int(mark_count, c_int16_t)
    call lay_out(new)
    call match_corners()
    do k = 0, int(new%corners) - 1 ! a corner that stays keeps its value, a new one has the mean of its ends
      if (was(k) >= 0) then
        carried(k) = peak(was(k))
      else
        carried(k) = (carried(new%ends(1, k)) + carried(new%ends(2, k)))/2
      end if
    end do
    peak = carried
    associate (n => int(new%corners))
      print '(i0, a, i0, a, i0, a, i0, a, f0.3)', new%cells, ' cells, ', n, ' corners, ', count(was(:n - 1) >= 0), &
        ' of them kept, ', count([(was(k) >= 0 .and. was(k) /= k, k=0, n - 1)]), ' with another number, mean peak ', &
        sum(peak(:n - 1))/n
    end associate
    old = new
  end do
  call accepted(yd_write(positions, size(positions, kind=c_size_t), cells, size(cells, kind=c_size_t), marked, mark_count, &
                         marks, mark_count, step_ends, int(steps, c_size_t), bytes, YD_BYTES_LENGTH, byte_count))
  open (newunit=unit, file=name, access='stream', form='unformatted', status='replace', action='write', iostat=status)
  if (status == 0) write (unit, iostat=status) bytes(:byte_count)
  if (status == 0) close (unit, iostat=status)
  if (status /= 0) call fail('loop: cannot write '//trim(name))

contains

  subroutine fail(what)
    character(len=*), intent(in) :: what
    write (error_unit, '(a)') what
    stop 1
  end subroutine

  subroutine accepted(answer)
    integer(c_int8_t), intent(in) :: answer
    character(len=20) :: text
    if (answer == YD_ACCEPTED) return
    write (text, '(a, i0)') 'loop: refused ', answer
    call fail(trim(text))
  end subroutine

  ! Corners 60 or 30 mm apart, x growing first, then y, then z; eight blocks of six cells, each cell a way from a block's
  ! first corner to its last.
  subroutine make_plate()
    integer, parameter :: ways(2, 0:5) = reshape([1, 5, 1, 15, 5, 1, 5, 15, 15, 1, 15, 5], [2, 6])
    integer :: k, first
    do k = 0, int(coarse_corners) - 1
      positions(:, k) = [600*mod(k, 5), 600*mod(k/5, 3), 300*(k/15)]
    end do
    do k = 0, int(coarse_cells) - 1
      first = mod(k/6, 4) + 5*(k/24)
      associate (way => ways(:, mod(k, 6)))
        cells(:, k) = int([first, first + way(1), first + way(1) + way(2), first + 21], c_int16_t)
      end associate
    end do
  end subroutine

  subroutine lay_out(m)
    type(mesh), intent(inout) :: m
    integer(c_size_t) :: k
    call accepted(yd_lay_out(positions, size(positions, kind=c_size_t), cells, size(cells, kind=c_size_t), m%status, m%cells, &
                             m%table, YD_TABLE_LENGTH, m%ends, YD_ENDS_LENGTH, m%sums, YD_SUMS_LENGTH, &
                             m%cells, m%corners, m%levels))
    do k = 0, m%corners - 1
      call accepted(yd_position(m%sums, YD_SUMS_LENGTH, m%corners, k, m%points(1, k), m%points(2, k), m%points(3, k)))
    end do
  end subroutine

  ! 1,000 degrees at the spot, and less with the distance.
  pure function temperature(point, spot) result(degrees)
    real(c_double), intent(in) :: point(3), spot(3)
    real(c_double) :: degrees
    degrees = 1000*exp(-sum((point - spot)**2)/(250*250))
  end function

  ! Leaves that are hot in their middle are refined; families of a red cell that are all leaves and all cold are deleted.
  subroutine mark(m, spot)
    type(mesh), intent(in) :: m
    real(c_double), intent(in) :: spot(3)
    real(c_double) :: heat
    integer :: k, cold(0:YD_MOST_CELLS - 1) ! how many cold leaves each cell has for children
    cold = 0
    mark_of = 0
    do k = 0, int(m%cells) - 1
      if (m%status(k) /= YD_LEAF) cycle
      heat = temperature(sum(m%points(:, m%table(5:8, k)), dim=2)/4, spot)
      associate (level => m%table(1, k), parent => m%table(2, k))
        if (heat > merge(200, 425, level == 0)) mark_of(k) = YD_REFINE
        if (heat < 140 .and. parent /= YD_NO_PARENT) cold(parent) = cold(parent) + 1
      end associate
    end do
    do k = int(coarse_cells), int(m%cells) - 1
      associate (parent => m%table(2, k))
        if (m%status(parent) == YD_RED .and. cold(parent) == 8) mark_of(k) = YD_DELETE
      end associate
    end do
  end subroutine

  ! For each corner of the new mesh the number that it had in the old one, or -1. A corner lies in the middle of the same two
  ! corners in every mesh, and they come before it: so it is the old corner whose ends are its own ends' old numbers. A coarse
  ! corner keeps its number.
  subroutine match_corners()
    integer :: k, j, a, b
    do k = 0, int(new%corners) - 1
      if (new%ends(1, k) == new%ends(2, k)) then
        was(k) = k
        cycle
      end if
      a = was(new%ends(1, k))
      b = was(new%ends(2, k))
      was(k) = -1
      if (a < 0 .or. b < 0) cycle
      do j = int(coarse_corners), int(old%corners) - 1
        if (all(old%ends(:, j) == [a, b]) .or. all(old%ends(:, j) == [b, a])) was(k) = j
      end do
    end do
  end subroutine
end program
