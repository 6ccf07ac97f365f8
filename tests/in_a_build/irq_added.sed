# The driver of the bus has a second interrupt.
/irq="72"/a\
        <irq irq="73" id="2" />
