! Reads real fields as FORTRAN does, each by the descriptor of its length: standard input has a line for each, two digits that say how many bytes it has, a
! blank, the field. Quad precision, so that the 31 digits printed are the field's own, of which there are at most 24, and zeros.
program reading
    implicit none
    character(len=64) :: line
    character(len=16) :: descriptor
    integer :: length, status
    real(16) :: value

    do
        read (*, '(I2, 1X, A)', iostat=status) length, line
        if (status /= 0) exit
        select case (length)
        case (12)
            descriptor = '(E12.6)'
        case (7)
            descriptor = '(F7.4)'
        case default
            write (descriptor, '(A, I0, A)') '(D', length, '.15)'
        end select
        read (line(1:length), descriptor, iostat=status) value
        if (status /= 0) then
            write (*, '(A)') 'not read'
        else
            write (*, '(ES45.30E4)') value
        end if
    end do
end program reading
